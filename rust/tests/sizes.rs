//! The sizes of a shape against the formulas of RULES 1.2, 3.1, 6.1 and 11.5, and the tables of names against the archive's.

use yuthsaok::{sys, End, Refusal, Shape};

fn digits(n: u32) -> usize {
    n.to_string().len()
}

/// The bytes of a line with the largest session, tape and residues.
fn longest_line(q: u32, sides: [u32; 3], count: usize) -> usize {
    let head = 2 + 11 + 11 + (digits(q) + 1) + sides.iter().map(|side| digits(*side) + 1).sum::<usize>();
    head + count * (digits(q - 1) + 1)
}

fn check_product(q: u32, m: u32, k: u32, p: u32) {
    let shape = Shape::Product { q, m, k, p };
    let fits = (1..=32).contains(&m) && (1..=32).contains(&p) && (1..=2048).contains(&k) && m * k <= 2048 && k * p <= 2048;
    let of = |size: u32| if fits { size as usize } else { 0 };
    assert_eq!(shape.tape_words(End::Left), of(7 + m * k + m * p), "{shape}");
    assert_eq!(shape.tape_words(End::Right), of(7 + k * p + m * p), "{shape}");
    assert_eq!(shape.slot_words(), of(7 + m * p + k * m.max(p)), "{shape}");
    assert_eq!((shape.coin_count(End::Left), shape.coin_count(End::Right)), (of(m * p), 0));
    assert_eq!(shape.deal_count(), of(m * k + k * p + m * p));
    assert_eq!((shape.input_words(End::Left), shape.input_words(End::Right)), (of(m * k), of(k * p)));
    assert_eq!((shape.result_words(End::Left), shape.result_words(End::Right)), (of(m * p), of(m * p)));
    let line = |count: u32| if fits { longest_line(q, [m, k, p], count as usize) } else { 0 };
    assert_eq!((shape.line_bytes(1), shape.line_bytes(2)), (line(k * p), line(m * k + m * p)));
    assert_eq!([0, 3, 4, 5, 6, 7].map(|kind| shape.line_bytes(kind)), [0; 6]);
    assert_eq!([End::Left, End::Right].map(|end| shape.scratch_words(end)), [0; 2]);
    check_none_of(shape, [End::Blinder, End::Solver]);
}

/// An end of the other sort has no size.
fn check_none_of(shape: Shape, ends: [End; 2]) {
    for end in ends {
        assert_eq!((shape.tape_words(end), shape.scratch_words(end), shape.coin_count(end)), (0, 0, 0));
        assert_eq!((shape.input_words(end), shape.result_words(end)), (0, 0));
    }
}

#[test]
fn products_have_the_sizes_of_the_rules() {
    for m in [0, 1, 2, 31, 32, 33] {
        for p in [0, 1, 3, 32, 33] {
            for k in [0, 1, 2, 30, 64, 65, 1024, 1025, 2048, 2049] {
                for q in [2, 7, 31, 1_000_000, 2_147_483_647] {
                    check_product(q, m, k, p);
                }
            }
        }
    }
}

#[test]
fn systems_have_the_sizes_of_the_rules() {
    for n in 0..=20u32 {
        let q = 1_000_003;
        let shape = Shape::System { q, n };
        let of = |size: u32| if (1..=16).contains(&n) { size as usize } else { 0 };
        let line = |count: u32| if of(1) > 0 { longest_line(q, [n, n, n + 1], count as usize) } else { 0 };
        assert_eq!((shape.tape_words(End::Blinder), shape.tape_words(End::Solver)), (of(7 + 4 * n * n + n), of(7 + 4 * n * n + 2 * n)));
        assert_eq!(shape.slot_words(), of(7 + 4 * n * n + 2 * n));
        assert_eq!((shape.scratch_words(End::Blinder), shape.scratch_words(End::Solver)), (of(2 * n * n + n), 0));
        assert_eq!((shape.coin_count(End::Blinder), shape.coin_count(End::Solver)), (of(2 * n * n + n), 0));
        assert_eq!(shape.deal_count(), of(6 * n * n + 2 * n));
        assert_eq!([End::Blinder, End::Solver].map(|end| shape.input_words(end)), [of(n * n + n); 2]);
        assert_eq!((shape.result_words(End::Blinder), shape.result_words(End::Solver)), (of(n), 0));
        assert_eq!([3, 4, 5, 6, 7].map(|kind| shape.line_bytes(kind)), [line(n * n), line(n * n + n), line(n), 0, 0]);
        check_none_of(shape, [End::Left, End::Right]);
    }
    assert_eq!(Shape::System { q: 5, n: u32::MAX }.slot_words(), 0);
}

#[test]
fn determinants_have_the_sizes_of_the_rules() {
    for n in 0..=20u32 {
        let q = 1_000_003;
        let shape = Shape::Determinant { q, n };
        let of = |size: u32| if (1..=16).contains(&n) { size as usize } else { 0 };
        let line = |count: u32| if of(1) > 0 { longest_line(q, [n, n, n], count as usize) } else { 0 };
        assert_eq!([End::Blinder, End::Solver].map(|end| shape.tape_words(end)), [of(7 + 4 * n * n); 2]);
        assert_eq!(shape.slot_words(), of(7 + 4 * n * n));
        assert_eq!((shape.scratch_words(End::Blinder), shape.scratch_words(End::Solver)), (of(2 * n * n), 0));
        assert_eq!((shape.coin_count(End::Blinder), shape.coin_count(End::Solver)), (of(2 * n * n), 0));
        assert_eq!(shape.deal_count(), of(6 * n * n));
        assert_eq!([End::Blinder, End::Solver].map(|end| shape.input_words(end)), [of(n * n); 2]);
        assert_eq!((shape.result_words(End::Blinder), shape.result_words(End::Solver)), (of(1), 0));
        assert_eq!([3, 4, 5, 6, 7].map(|kind| shape.line_bytes(kind)), [line(n * n), line(n * n), 0, line(1), 0]);
        check_none_of(shape, [End::Left, End::Right]);
    }
    assert_eq!(Shape::Determinant { q: 5, n: u32::MAX }.slot_words(), 0);
}

#[test]
fn a_modulus_out_of_range_has_no_line() {
    for q in [0, 1, 2_147_483_648, u32::MAX] {
        assert_eq!(Shape::Product { q, m: 1, k: 1, p: 1 }.line_bytes(1), 0);
    }
    assert_eq!(Shape::System { q: 6, n: 1 }.line_bytes(3), 0);
    assert_eq!(Shape::Determinant { q: 6, n: 1 }.line_bytes(6), 0);
}

#[test]
fn refusals_have_the_words_of_the_archive() {
    for refusal in Refusal::ALL {
        let mut word = [0; 16];
        let length = unsafe { sys::yuthsaok_refusal_word(refusal.number(), word.as_mut_ptr(), word.len()) };
        assert_eq!(&word[..length], refusal.word().as_bytes());
        assert_eq!(Refusal::from_number(refusal.number()), Some(refusal));
    }
    assert_eq!([0, 11, u32::MAX].map(Refusal::from_number), [None; 3]);
}

#[test]
fn ends_have_the_numbers_of_the_rules() {
    assert_eq!(End::ALL.map(End::number), [1, 2, 3, 4]);
    assert_eq!(End::ALL.map(|end| End::from_number(end.number())), End::ALL.map(Some));
    assert_eq!([0, 5].map(End::from_number), [None; 2]);
}

#[test]
fn the_crate_has_the_version_of_the_archive() {
    assert_eq!(yuthsaok::version().to_string(), env!("CARGO_PKG_VERSION"));
    assert_eq!(unsafe { sys::yuthsaok_record_words() }, 280);
}
