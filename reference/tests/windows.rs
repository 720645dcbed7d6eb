//! RULES 12: windows of days by hand, and the machine's calls of them.

use reference::answers::Reference;
use reference::entries::{Entries, Share};
use reference::machine::{Machine, FLAGS_FIT, INPUT, NEXT_WINDOW, RESULT, WINDOW_SHARE};
use reference::window::{flags_fit, next_window, window_share};

const RUN: [u32; 6] = [5, 2, 6, 0, 4, 3];

fn bytes(words: &[u32]) -> Vec<u8> {
    words.iter().flat_map(|w| w.to_le_bytes()).collect()
}

#[test]
fn shares() {
    // 5 + 2 + 6, 2 + 6 + 0, 6 + 0 + 4, 0 + 4 + 3
    assert_eq!([0, 1, 2, 3].map(|first| window_share(7, &RUN, first, 3)), [Ok(6), Ok(1), Ok(3), Ok(0)]);
    // 6 + 0 − 5, 1 + 4 − 2, 3 + 3 − 6
    assert_eq!([(0, 6), (1, 1), (2, 3)].map(|(first, share)| next_window(7, &RUN, first, 3, share)), [Ok(1), Ok(3), Ok(0)]);
    assert_eq!(window_share(7, &RUN, 0, 6), Ok(6));
    assert_eq!(window_share(2, &[1, 1, 1], 2, 1), Ok(1));
    assert_eq!(window_share(2_147_483_647, &[2_147_483_646; 2048], 0, 2048), Ok(2_147_483_647 - 2048));
}

#[test]
fn windows_that_do_not_fit() {
    for (q, first, w) in [(7, 0, 0), (7, 0, 7), (8, 0, 7), (6, 0, 6), (7, 4, 3), (7, 6, 1), (7, usize::MAX, 1), (7, 1, usize::MAX)] {
        assert_eq!(window_share(q, &RUN, first, w), Err(4));
        assert_eq!(next_window(q, &RUN, first, w, 0), Err(4));
    }
    assert_eq!((window_share(7, &RUN, 3, 3), next_window(7, &RUN, 3, 3, 0)), (Ok(0), Err(4)));
    assert_eq!((window_share(7, &RUN, 0, 6), next_window(7, &RUN, 0, 6, 6)), (Ok(6), Err(4)));
    assert_eq!((window_share(7, &[], 0, 1), window_share(7, &[0; 2049], 0, 1)), (Err(4), Err(4)));
    assert_eq!((window_share(7, &[0; 2048], 2047, 1), window_share(7, &[0; 2048], 2048, 1)), (Ok(0), Err(4)));
}

#[test]
fn the_days_that_are_judged() {
    for bad in 0..6 {
        let mut run = RUN;
        run[bad] = 7;
        assert_eq!(window_share(7, &run, 1, 3), if (1..4).contains(&bad) { Err(8) } else { Ok(1) });
        assert_eq!(next_window(7, &run, 1, 3, 1), if bad == 1 || bad == 4 { Err(8) } else { Ok(3) });
    }
    assert_eq!((next_window(7, &RUN, 1, 3, 6), next_window(7, &RUN, 1, 3, 7)), (Ok(1), Err(8)));
}

#[test]
fn the_lowest_is_given() {
    for q in [0, 1, 2_147_483_648, u32::MAX] {
        assert_eq!((window_share(q, &[q; 5], 0, 2), next_window(q, &[q; 5], 0, 2, q)), (Err(2), Err(2)));
        assert_eq!((window_share(q, &[], 0, 0), next_window(q, &[], 0, 0, q)), (Err(2), Err(2)));
    }
    assert_eq!((window_share(7, &[7; 5], 4, 2), next_window(7, &[7; 5], 3, 2, 7)), (Err(4), Err(4)));
}

#[test]
fn flags() {
    assert_eq!([&[0][..], &[1; 2048], &[1, 0, 1]].map(flags_fit), [0; 3]);
    assert_eq!([&[][..], &[0; 2049], &[2; 2049]].map(flags_fit), [4; 3]);
    assert_eq!([&[2][..], &[0, 1, u32::MAX], &[256, 0]].map(flags_fit), [8; 3]);
}

#[test]
fn runs_of_bytes() {
    let run = bytes(&RUN);
    assert_eq!(Reference::window_share(7, &run, 1, 3), Share { number: 0, share: 1 });
    assert_eq!(Reference::next_window(7, &run, 0, 3, 6), Share { number: 0, share: 1 });
    for length in [21, 22, 23] {
        assert_eq!(Reference::window_share(7, &run[..length], 0, 3), Share { number: 4, share: 0 });
        assert_eq!(Reference::next_window(7, &run[..length], 0, 3, 6), Share { number: 4, share: 0 });
        // q goes before, and residues behind
        assert_eq!(Reference::next_window(1, &run[..length], 0, 3, 6).number, 2);
        assert_eq!(Reference::window_share(6, &run[..length], 2, 3).number, 4);
        assert_eq!(Reference::flags_fit(&run[..length]), 4);
    }
    assert_eq!((Reference::flags_fit(&run), Reference::flags_fit(&bytes(&[1, 0]))), (8, 0));
}

#[test]
fn the_machine_makes_a_run_of_results() {
    let mut machine = Machine::<Reference>::default();
    machine.perform(&[&[2, RESULT as u32, 1], &RUN[..]].concat());
    machine.perform(&[9, RESULT as u32, 1, 6, INPUT as u32, 0]);
    machine.perform(&[0, 7, 7]);
    machine.perform(&[0, 25, 24]);
    let printed = [&[WINDOW_SHARE, 28, 0, 0, 3][..], &[NEXT_WINDOW, 28, 6, 0, 3], &[FLAGS_FIT]].map(|line| machine.perform(line));
    let starts = ["26,0,6,0,", "27,0,1,0,", "28,8,0,0,"];
    printed.iter().zip(starts).for_each(|(line, start)| assert!(line.starts_with(start), "{line}"));
    // numbers from 2^31 on are as far below 2^64
    assert!(machine.perform(&[WINDOW_SHARE, 29, u32::MAX, 3]).starts_with("26,4,0,0,"));
    assert_eq!(machine.name(NEXT_WINDOW), "next_window");
}
