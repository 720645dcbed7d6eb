//! Every refusal through the safe calls, and that refused calls change nothing.

mod common;

use common::*;
use yuthsaok::{deal, has_inverse, to_residue, to_score, Pool, Refusal, Session, SessionNumber, Shape, Slot, Status, TapeNumber, Terms};

const FIRST: &[u8] = b"1,9,4,7,1,2,1,3,3\n";
const SECOND: &[u8] = b"2,9,4,7,1,2,1,4,2,3\n";

/// A dealing of README's product with something changed is refused, and both pools stay.
fn check_deal(slot: Slot, tape: u32, shape: Shape, words: &[u32], refusal: Refusal) {
    let mut first = Pool::new(20, 2);
    let mut second = Pool::new(20, 2);
    assert_eq!(deal(&mut first, &mut second, slot, TapeNumber(tape), shape, words), Err(refusal));
    assert_eq!((first, second), (Pool::new(20, 2), Pool::new(20, 2)));
}

#[test]
fn dealings_are_refused() {
    let product = Shape::Product { q: 7, m: 1, k: 2, p: 1 };
    let words = [1, 4, 6, 3, 2, 0, 0, 0];
    check_deal(Slot(0), 1, Shape::Product { q: 1, m: 1, k: 2, p: 1 }, &words, Refusal::Modulus);
    check_deal(Slot(0), 1, Shape::System { q: 6, n: 1 }, &words, Refusal::Composite);
    check_deal(Slot(0), 0, product, &words, Refusal::Size);
    check_deal(Slot(2), 1, product, &words, Refusal::Size);
    check_deal(Slot(usize::MAX), 1, product, &words, Refusal::Size);
    check_deal(Slot(0), 1, Shape::Product { q: 7, m: 1, k: 20, p: 1 }, &words, Refusal::Size);
    check_deal(Slot(0), 1, Shape::System { q: 5, n: u32::MAX }, &words, Refusal::Size);
    check_deal(Slot(0), 1, product, &words[..4], Refusal::Dry);
    check_deal(Slot(0), 1, product, &[u32::MAX; 9], Refusal::Dry);
    check_deal(Slot(0), 1, Shape::System { q: 5, n: 1 }, &[0; 8], Refusal::Singular);
    check_deal(Slot(0), 1, Shape::Determinant { q: 0, n: 1 }, &words, Refusal::Modulus);
    check_deal(Slot(0), 1, Shape::Determinant { q: 6, n: 1 }, &words, Refusal::Composite);
    check_deal(Slot(0), 1, Shape::Determinant { q: 5, n: 0 }, &words, Refusal::Size);
    check_deal(Slot(0), 1, Shape::Determinant { q: 5, n: 2 }, &words, Refusal::Size);
    check_deal(Slot(0), 1, Shape::Determinant { q: 5, n: u32::MAX }, &words, Refusal::Size);
    check_deal(Slot(0), 1, Shape::Determinant { q: 5, n: 1 }, &words[..5], Refusal::Dry);
    check_deal(Slot(0), 1, Shape::Determinant { q: 5, n: 1 }, &[0; 6], Refusal::Singular);
}

#[test]
fn a_tape_is_not_dealt_over() {
    let (terms, [mut left, mut right]) = known_product();
    let before = (left.as_bytes().to_vec(), right.as_bytes().to_vec());
    assert_eq!(deal(&mut left, &mut right, SLOT, TapeNumber(5), terms.shape, &[0; 5]), Err(Refusal::Mark));
    assert_eq!((left.into_bytes(), right.into_bytes()), before);
}

#[test]
fn pools_of_two_slot_sizes_are_refused() {
    let shape = Shape::Product { q: 7, m: 1, k: 2, p: 1 };
    let (mut first, mut second) = (Pool::new(10, 1), Pool::new(11, 1));
    assert_eq!(deal(&mut first, &mut second, Slot(0), TapeNumber(1), shape, &[0; 5]), Err(Refusal::Size));
}

#[test]
fn pools_of_no_size_have_no_slot() {
    let mut pool = Pool::new(0, 5);
    assert_eq!((pool.slots(), pool.tape(Slot(0)), pool.tapes().count()), (0, None, 0));
    let terms = Terms { session: SessionNumber(1), tape: TapeNumber(1), shape: Shape::System { q: 5, n: 1 } };
    assert_eq!(Session::solver(&mut pool, Slot(0), terms, &[1], &[1]), Err(Refusal::Size));
    assert_eq!(Pool::from_bytes(vec![0; 8], 0), Err(Refusal::Size));
    assert_eq!(Pool::from_bytes(vec![0; 7], 1), Err(Refusal::Size));
    assert_eq!(Pool::from_bytes(vec![0; 40], 3).unwrap().slots(), 3);
    assert_eq!(Pool::new(6, 1).tape(Slot(0)), None);
    assert_eq!(Pool::new(10, 2).slot_bytes(Slot(usize::MAX)), None);
}

/// Right's first step with terms and Y of its own.
fn check_right(change: impl Fn(&mut Terms), slot: Slot, y: &[u32], refusal: Refusal) {
    let (mut terms, [_, mut right]) = known_product();
    let before = right.as_bytes().to_vec();
    change(&mut terms);
    assert_eq!(Session::right(&mut right, slot, terms, y), Err(refusal));
    assert_eq!(right.into_bytes(), before);
}

#[test]
fn first_steps_without_a_message_are_refused() {
    check_right(|t| t.shape = Shape::Product { q: 1, m: 1, k: 2, p: 1 }, SLOT, &[2, 6], Refusal::Modulus);
    check_right(|t| t.shape = Shape::System { q: 7, n: 1 }, SLOT, &[2, 6], Refusal::Size);
    check_right(|t| t.session = SessionNumber(0), SLOT, &[2, 6], Refusal::Size);
    check_right(|_| (), Slot(2), &[2, 6], Refusal::Size);
    check_right(|_| (), SLOT, &[2, 6, 1], Refusal::Size);
    check_right(|_| (), Slot(0), &[2, 6], Refusal::Mark);
    check_right(|t| t.tape = TapeNumber(5), SLOT, &[2, 6], Refusal::Stranger);
    check_right(|t| t.shape = Shape::Product { q: 11, m: 1, k: 2, p: 1 }, SLOT, &[2, 6], Refusal::Stranger);
    check_right(|_| (), SLOT, &[2, 7], Refusal::Residue);
}

/// Left's step with X, words and a message of its own.
fn check_left(x: &[u32], words: &[u32], message: &[u8], refusal: Refusal) {
    let (terms, [mut left, _]) = known_product();
    let before = left.as_bytes().to_vec();
    assert_eq!(Session::left(&mut left, SLOT, terms, x, words, message), Err(refusal));
    assert_eq!(left.into_bytes(), before);
}

#[test]
fn first_steps_with_a_message_are_refused() {
    check_left(&[3, 5], &[5], b"", Refusal::Form);
    check_left(&[3, 5], &[5], &FIRST[..17], Refusal::Form);
    check_left(&[3, 5], &[5], b"7,9,4,7,1,2,1,3,3\n", Refusal::Form);
    check_left(&[3, 5], &[5], b"1,9,4,1,1,2,1,3,3\n", Refusal::Modulus);
    check_left(&[3, 5], &[5], b"3,9,4,6,1,1,2,3\n", Refusal::Composite);
    check_left(&[3], &[5], FIRST, Refusal::Size);
    check_left(&[3, 5], &[5], b"1,9,4,7,1,2,1,3\n", Refusal::Size);
    check_left(&[3, 5], &[5], SECOND, Refusal::Turn);
    check_left(&[3, 5], &[5], b"1,8,4,7,1,2,1,3,3\n", Refusal::Stranger);
    check_left(&[7, 5], &[5], FIRST, Refusal::Residue);
    check_left(&[3, 5], &[], FIRST, Refusal::Dry);
}

#[test]
fn first_steps_of_a_system_are_refused() {
    let (terms, [mut blinders, mut solvers]) = known_system();
    let before = (blinders.as_bytes().to_vec(), solvers.as_bytes().to_vec());
    let composite = Terms { shape: Shape::System { q: 6, n: 1 }, ..terms };
    let product = Terms { shape: Shape::Product { q: 5, m: 1, k: 1, p: 2 }, ..terms };
    assert_eq!(Session::solver(&mut solvers, SLOT, composite, &[2], &[3]), Err(Refusal::Composite));
    assert_eq!(Session::solver(&mut solvers, SLOT, product, &[2], &[3]), Err(Refusal::Size));
    assert_eq!(Session::solver(&mut solvers, SLOT, terms, &[5], &[3]), Err(Refusal::Residue));
    assert_eq!(Session::solver(&mut solvers, SLOT, terms, &[0], &[3]), Err(Refusal::Singular));
    let message = b"1,9,4,5,1,1,2,3,1\n";
    let mut begin = |m: &[u32], words: &[u32], message: &[u8]| Session::blinder(&mut blinders, SLOT, terms, m, &[1], words, message);
    assert_eq!(begin(&[1], &[2, 1, 2], b"\n"), Err(Refusal::Form));
    assert_eq!(begin(&[1], &[2, 1], message), Err(Refusal::Dry));
    assert_eq!(begin(&[0], &[2, 1, 2], message), Err(Refusal::Singular));
    assert_eq!(begin(&[1], &[0, 1, 2], message), Err(Refusal::Singular));
    assert_eq!((blinders.into_bytes(), solvers.into_bytes()), before);
}

/// Every step of the two is refused on a tape and on terms of the other, and so is every vector in a determinant.
#[test]
fn systems_and_determinants_are_not_taken_for_each_other() {
    let (system, [_, mut of_system]) = known_system();
    let (determinant, [mut blinders, mut solvers]) = known_determinant();
    let before = (blinders.as_bytes().to_vec(), solvers.as_bytes().to_vec());
    assert_eq!(Session::solver(&mut of_system, SLOT, determinant, &[2], &[]), Err(Refusal::Stranger));
    assert_eq!(Session::solver(&mut solvers, SLOT, determinant, &[2], &[3]), Err(Refusal::Size));
    assert_eq!(Session::solver(&mut solvers, SLOT, determinant, &[], &[2]), Err(Refusal::Size));
    assert_eq!(Session::solver(&mut solvers, SLOT, determinant, &[0], &[]), Err(Refusal::Singular));
    // its slot is shorter than a system's half
    assert_eq!(Session::solver(&mut solvers, SLOT, system, &[2], &[3]), Err(Refusal::Size));
    let mut begin = |m: &[u32], y: &[u32], words: &[u32], message: &[u8]| {
        Session::blinder(&mut blinders, SLOT, determinant, m, y, words, message).map(|_| ())
    };
    let message = b"1,9,4,5,1,1,1,3\n";
    assert_eq!(begin(&[1], &[], &[2, 1], b"1,9,4,5,1,1,2,3,1\n"), Err(Refusal::Stranger));
    assert_eq!(begin(&[1], &[1], &[2, 1], message), Err(Refusal::Size));
    assert_eq!(begin(&[1], &[], &[2], message), Err(Refusal::Dry));
    assert_eq!(begin(&[0], &[], &[2, 1], message), Err(Refusal::Singular));
    assert_eq!(begin(&[1], &[], &[0, 1], message), Err(Refusal::Singular));
    assert_eq!((blinders.into_bytes(), solvers.into_bytes()), before);
}

/// Of the last two kinds one is the system's and the other the determinant's.
#[test]
fn last_lines_of_the_other_sort_are_refused() {
    for (known, l, words, due) in
        [(known_system as fn() -> (Terms, [Pool; 2]), &[2, 3][..], &[2, 1, 2][..], Some(5)), (known_determinant, &[2], &[2, 1], Some(6))]
    {
        let (terms, [mut blinders, mut solvers]) = known();
        let (mut solving, first) = Session::solver(&mut solvers, SLOT, terms, &l[..1], &l[1..]).unwrap();
        let (mut blinding, second) = Session::blinder(&mut blinders, SLOT, terms, &l[..1], &l[1..], words, &first.line).unwrap();
        let third = solving.next(&mut solvers, SLOT, &second.line).unwrap();
        let fourth = blinding.next(&mut blinders, SLOT, &third.line).unwrap();
        let last = solving.next(&mut solvers, SLOT, &fourth.line).unwrap();
        assert_eq!(blinding.due(), due);
        for (line, kind, refusal) in [
            (&b"5,9,4,5,1,1,1\n"[..], None, Refusal::Size),
            (b"5,9,4,5,1,1,1,1\n", None, Refusal::Size),
            (b"6,9,4,5,1,1,2,1\n", None, Refusal::Size),
            (b"5,9,4,5,1,1,2,1\n", Some(5), Refusal::Turn),
            (b"6,9,4,5,1,1,1,1\n", Some(6), Refusal::Turn),
            (b"7,9,4,5,1,1,1,1\n", None, Refusal::Form),
        ] {
            if kind != due || kind.is_none() {
                assert_eq!(blinding.next(&mut blinders, SLOT, line), Err(refusal));
            }
        }
        assert_eq!(blinding.next(&mut blinders, SLOT, &last.line).unwrap().result.len(), 1);
    }
}

/// A host that altered P: the determinant can't be divided, and nothing changes.
#[test]
fn an_altered_scratch_is_refused() {
    let (terms, [mut blinders, mut solvers]) = known_determinant();
    let (mut solving, first) = Session::solver(&mut solvers, SLOT, terms, &[2], &[]).unwrap();
    let (mut blinding, second) = Session::blinder(&mut blinders, SLOT, terms, &[1], &[], &[2, 1], &first.line).unwrap();
    let third = solving.next(&mut solvers, SLOT, &second.line).unwrap();
    let fourth = blinding.next(&mut blinders, SLOT, &third.line).unwrap();
    let last = solving.next(&mut solvers, SLOT, &fourth.line).unwrap();
    let right = blinding.to_bytes();
    let mut altered = right.clone();
    assert_eq!(std::mem::replace(&mut altered[1120], 0), 2);
    let mut session = Session::from_bytes(&altered).unwrap();
    let before = blinders.as_bytes().to_vec();
    assert_eq!(session.next(&mut blinders, SLOT, &last.line), Err(Refusal::Singular));
    assert_eq!((session.to_bytes(), blinders.as_bytes()), (altered, &before[..]));
    assert_eq!(Session::from_bytes(&right).unwrap().next(&mut blinders, SLOT, &last.line).unwrap().result, [3]);
}

#[test]
fn a_matrix_is_not_cut_from_its_vector() {
    let (terms, [mut blinders, mut solvers]) = known_system();
    for (matrix, vector) in [(&[][..], &[2, 3][..]), (&[2, 3], &[]), (&[2], &[]), (&[2], &[3, 3]), (&[], &[])] {
        assert_eq!(Session::solver(&mut solvers, SLOT, terms, matrix, vector), Err(Refusal::Size));
        let composite = Terms { shape: Shape::System { q: 6, n: 1 }, ..terms };
        assert_eq!(Session::solver(&mut solvers, SLOT, composite, matrix, vector), Err(Refusal::Composite));
        let message = b"1,9,4,5,1,1,2,3,1\n";
        assert_eq!(Session::blinder(&mut blinders, SLOT, terms, matrix, vector, &[2, 1, 2], message), Err(Refusal::Size));
        assert_eq!(Session::blinder(&mut blinders, SLOT, terms, matrix, vector, &[2, 1, 2], b"x"), Err(Refusal::Form));
    }
}

#[test]
fn later_steps_are_refused() {
    let (terms, [_, mut right]) = known_product();
    let (mut session, _) = Session::right(&mut right, SLOT, terms, &[2, 6]).unwrap();
    let before = (session.to_bytes(), right.as_bytes().to_vec());
    let cases: [(Slot, &[u8], Refusal); 9] = [
        (SLOT, b"2,9,4,7,1,2,1,4,2,3\n\n", Refusal::Form),
        (SLOT, b"2,9,4,0,1,2,1,4,2,3\n", Refusal::Modulus),
        (SLOT, b"5,9,4,6,1,1,2,4\n", Refusal::Composite),
        (Slot(2), SECOND, Refusal::Size),
        (SLOT, FIRST, Refusal::Turn),
        (Slot(0), SECOND, Refusal::Mark),
        (SLOT, b"2,9,5,7,1,2,1,4,2,3\n", Refusal::Stranger),
        (SLOT, b"2,9,4,7,1,2,1,4,2,7\n", Refusal::Residue),
        (Slot(usize::MAX), SECOND, Refusal::Size),
    ];
    for (slot, message, refusal) in cases {
        assert_eq!(session.next(&mut right, slot, message), Err(refusal));
        assert_eq!((session.to_bytes(), right.as_bytes().to_vec()), before);
    }
    assert_eq!(session.next(&mut right, SLOT, SECOND).unwrap().result, [3]);
    assert_eq!(session.next(&mut right, SLOT, SECOND), Err(Refusal::Turn));
    assert_eq!(right.tape(SLOT).unwrap().status, Status::Spent);
}

#[test]
fn small_calls_are_refused() {
    assert_eq!((to_residue(1, 0), to_score(0, 0)), (Err(Refusal::Modulus), Err(Refusal::Modulus)));
    assert_eq!((to_residue(15, 8), to_residue(15, -8)), (Err(Refusal::Residue), Err(Refusal::Residue)));
    assert_eq!((to_score(15, 15), to_score(15, 8)), (Err(Refusal::Residue), Ok(-7)));
    assert_eq!(has_inverse(u32::MAX, 1, &[1]), Err(Refusal::Modulus));
    assert_eq!(has_inverse(6, 1, &[1]), Err(Refusal::Composite));
    assert_eq!(has_inverse(5, 2, &[1]), Err(Refusal::Size));
    assert_eq!(has_inverse(5, 1, &[5]), Err(Refusal::Residue));
    assert_eq!(has_inverse(5, 1, &[0]), Err(Refusal::Singular));
}
