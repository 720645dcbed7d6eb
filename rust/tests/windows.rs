//! Windows of days: real days counted, moving against working out afresh, and every refusal.

mod common;

use common::*;
use yuthsaok::sys::Share;
use yuthsaok::{
    deal, flags_fit, next_window, slices, window_share, Pool, Refusal, Session, SessionNumber, Shape, Slot, TapeNumber, Terms, MOST_DAYS,
};

const MOST_Q: u32 = 2_147_483_647;

/// The sum of a window's days, in wide numbers.
fn sum(q: u32, days: &[u32]) -> u32 {
    (days.iter().map(|day| u64::from(*day)).sum::<u64>() % u64::from(q)) as u32
}

/// The two shares of a day: a session with a tape of its own, in a slot that days before it have used.
fn day(pools: &mut [Pool; 2], q: u32, number: u32, flags: [u32; 2]) -> [u32; 2] {
    let shape = Shape::Product { q, m: 1, k: 1, p: 1 };
    let terms = Terms { session: SessionNumber(number), tape: TapeNumber(number), shape };
    let slot = Slot(number as usize % 2);
    let [left, right] = pools;
    deal(left, right, slot, terms.tape, shape, &random_words(shape.deal_count())).unwrap();
    let (mut session, first) = Session::right(right, slot, terms, &flags[1..]).unwrap();
    let (_, second) = Session::left(left, slot, terms, &flags[..1], &random_words(1), &first.line).unwrap();
    [second.result[0], session.next(right, slot, &second.line).unwrap().result[0]]
}

#[test]
fn the_shares_of_real_days_add_to_the_count() {
    for q in [41, 1000, MOST_Q] {
        let flags = [residues(40, 2), residues(40, 2)];
        flags.iter().for_each(|run| assert_eq!(flags_fit(run), Ok(())));
        let mut pools = [(); 2].map(|()| Pool::new(Shape::Product { q, m: 1, k: 1, p: 1 }.slot_words(), 2));
        let days: Vec<[u32; 2]> = (0..40).map(|i| day(&mut pools, q, i as u32 + 1, [flags[0][i], flags[1][i]])).collect();
        let runs = [0, 1].map(|end| days.iter().map(|day| day[end]).collect::<Vec<u32>>());
        for w in [1, 7, 30, 40] {
            let mut moved = [0, 1].map(|end| window_share(q, &runs[end], 0, w).unwrap());
            for first in 0..=40 - w {
                let afresh = [0, 1].map(|end| window_share(q, &runs[end], first, w).unwrap());
                assert_eq!(moved, afresh);
                let count = (first..first + w).filter(|i| flags[0][*i] * flags[1][*i] == 1).count();
                assert_eq!(plus(&afresh[..1], &afresh[1..], q), [count as u32]);
                moved = [0, 1].map(|end| next_window(q, &runs[end], first, w, moved[end]).unwrap_or(0));
            }
        }
    }
}

#[test]
fn moving_gives_what_is_worked_out_afresh() {
    for (q, w) in [(2, 1), (31, 30), (101, 100), (2049, 2048), (MOST_Q, 1), (MOST_Q, 366), (MOST_Q, 2047)] {
        let run = residues(MOST_DAYS, q);
        let mut share = window_share(q, &run, 0, w).unwrap();
        for first in 0..MOST_DAYS - w {
            assert_eq!(share, sum(q, &run[first..first + w]));
            share = next_window(q, &run, first, w, share).unwrap();
            assert_eq!(window_share(q, &run, first + 1, w), Ok(share));
        }
        assert_eq!(share, sum(q, &run[MOST_DAYS - w..]));
        assert_eq!(next_window(q, &run, MOST_DAYS - w, w, share), Err(Refusal::Size));
    }
}

#[test]
fn the_largest_sum_does_not_wrap_around() {
    let run = [MOST_Q - 1; MOST_DAYS];
    assert_eq!(window_share(MOST_Q, &run, 0, MOST_DAYS), Ok(MOST_Q - 2048));
    assert_eq!(next_window(MOST_Q, &run, 0, 2047, MOST_Q - 2047), Ok(MOST_Q - 2047));
}

/// Both calls are refused alike.
fn check(q: u32, run: &[u32], first: usize, w: usize, refusal: Refusal) {
    assert_eq!(window_share(q, run, first, w), Err(refusal), "q {q}, {first}, {w}");
    assert_eq!(next_window(q, run, first, w, 0), Err(refusal), "q {q}, {first}, {w}");
}

#[test]
fn moduli_out_of_range_are_refused_before_all_else() {
    for q in [0, 1, MOST_Q + 1, u32::MAX] {
        check(q, &[0; 5], 0, 2, Refusal::Modulus);
        check(q, &[], 9, 0, Refusal::Modulus);
        check(q, &[u32::MAX; 5], 0, 2, Refusal::Modulus);
        check(q, &[u32::MAX; 5], 0, 6, Refusal::Modulus);
    }
}

#[test]
fn windows_that_do_not_fit_are_refused_before_residues() {
    for run in [vec![0; 5], vec![u32::MAX; 5]] {
        check(7, &run, 0, 0, Refusal::Size);
        check(7, &run, 0, 6, Refusal::Size);
        check(7, &run, 3, 3, Refusal::Size);
        check(3, &run, 0, 3, Refusal::Size);
        check(3, &run, 0, 4, Refusal::Size);
        check(7, &[], 0, 1, Refusal::Size);
        for huge in [usize::MAX, usize::MAX - 1, 1 << 63, 1 << 62, 1 << 61, 1 << 32] {
            check(7, &run, huge, 1, Refusal::Size);
            check(7, &run, huge, 2, Refusal::Size);
            check(7, &run, 0, huge, Refusal::Size);
            check(7, &run, 2, huge, Refusal::Size);
            check(7, &run, huge, huge, Refusal::Size);
            check(7, &run, huge, 0usize.wrapping_sub(huge).wrapping_add(1), Refusal::Size);
        }
    }
    let long = vec![0; MOST_DAYS + 1];
    check(7, &long, 0, 1, Refusal::Size);
    assert_eq!((window_share(7, &long[1..], 0, 1), next_window(7, &long[1..], 0, 1, 5)), (Ok(0), Ok(5)));
}

#[test]
fn the_last_window_has_no_next() {
    assert_eq!(window_share(7, &[1, 2, 3, 4], 1, 3), Ok(2));
    assert_eq!(next_window(7, &[1, 2, 3, 4], 1, 3, 2), Err(Refusal::Size));
    assert_eq!(next_window(7, &[1, 2, 3, 4], 0, 4, 3), Err(Refusal::Size));
    assert_eq!(next_window(7, &[1, 2, 3, 4], 0, 3, 6), Ok(2));
}

#[test]
fn days_in_use_alone_are_judged() {
    // the window of days 1 to 3, and the next: day 1 leaves and day 4 is new
    for bad in 0..6 {
        let mut run = [1, 2, 3, 4, 5, 6];
        run[bad] = 7;
        let (is_summed, is_moved) = ((1..4).contains(&bad), bad == 1 || bad == 4);
        assert_eq!(window_share(7, &run, 1, 3), if is_summed { Err(Refusal::Residue) } else { Ok(2) });
        assert_eq!(next_window(7, &run, 1, 3, 2), if is_moved { Err(Refusal::Residue) } else { Ok(5) });
    }
    let run = [1, 2, 3, 4, 5, 6];
    assert_eq!(next_window(7, &run, 1, 3, 6), Ok(2));
    assert_eq!((next_window(7, &run, 1, 3, 7), next_window(7, &run, 1, 3, u32::MAX)), (Err(Refusal::Residue), Err(Refusal::Residue)));
}

#[test]
fn flags_are_refused() {
    assert_eq!((flags_fit(&[]), flags_fit(&[0; MOST_DAYS + 1])), (Err(Refusal::Size), Err(Refusal::Size)));
    assert_eq!(flags_fit(&[2; MOST_DAYS + 1]), Err(Refusal::Size));
    assert_eq!((flags_fit(&[0]), flags_fit(&[1; MOST_DAYS])), (Ok(()), Ok(())));
    for flag in [2, 256, 257, 1 << 24, 1 << 31, u32::MAX] {
        for at in [0, 1000, MOST_DAYS - 1] {
            let mut run = [1; MOST_DAYS];
            run[at] = flag;
            assert_eq!(flags_fit(&run), Err(Refusal::Residue));
        }
    }
}

#[test]
fn runs_of_bytes_are_whole_words_at_any_address() {
    for shift in 0..4 {
        let bytes: Vec<u8> = std::iter::repeat_n(9, shift).chain([5, 2, 6, 0].into_iter().flat_map(u32::to_le_bytes)).collect();
        let run = &bytes[shift..];
        assert_eq!(slices::window_share(7, run, 1, 3), Share { number: 0, share: 1 });
        assert_eq!(slices::next_window(7, run, 0, 3, 6), Share { number: 0, share: 1 });
        assert_eq!((slices::flags_fit(run), slices::flags_fit(&run[12..])), (8, 0));
        for length in [1, 13, 14, 15] {
            assert_eq!(slices::window_share(7, &run[..length], 0, 1), Share { number: 4, share: 0 });
            assert_eq!(slices::next_window(7, &run[..length], 0, 1, 5), Share { number: 4, share: 0 });
            assert_eq!(slices::flags_fit(&run[..length]), 4);
        }
    }
}
