//! Whole sessions, kept as bytes between all steps; the drop, the singular sum, and the determinant that is zero.

mod common;

use common::*;
use yuthsaok::{End, Head, Pool, Refusal, Session, SessionNumber, Shape, Slot, Status, TapeNumber};

/// What is kept between two days.
fn kept(session: Session, pool: Pool) -> (Session, Pool) {
    let (bytes, words) = (session.to_bytes(), pool.slot_words());
    let again = Session::from_bytes(&bytes).unwrap();
    assert_eq!(again.to_bytes(), bytes);
    (again, Pool::from_bytes(pool.into_bytes(), words).unwrap())
}

fn status(pool: &Pool) -> Status {
    pool.tape(SLOT).unwrap().status
}

/// A spent tape keeps its header, and nothing else stands in the pool.
fn check_spent(pool: &Pool, shape: Shape) {
    let tape = pool.tape(SLOT).unwrap();
    assert_eq!((tape.status, tape.number, tape.shape()), (Status::Spent, TAPE, Some(shape)));
    assert!(pool.slot_bytes(SLOT).unwrap()[28..].iter().all(|byte| *byte == 0));
}

fn check_product(shape: Shape) {
    let (q, [m, k, p]) = (shape.modulus(), shape.sides().map(|side| side as usize));
    let [mut left, mut right] = pools(shape);
    let (x, y) = (residues(m * k, q), residues(k * p, q));
    let (session, first) = Session::right(&mut right, SLOT, terms(shape), &y).unwrap();
    assert_eq!((status(&right), first.result.len(), first.words_read), (Status::InUse, 0, 0));
    let (mut session, mut right) = kept(session, right);

    let (done, second) = Session::left(&mut left, SLOT, terms(shape), &x, &random_words(m * p), &first.line).unwrap();
    assert_eq!((done.end(), done.is_open()), (End::Left, false));
    assert!(second.words_read >= m * p && second.line.len() <= shape.line_bytes(2));

    let last = session.next(&mut right, SLOT, &second.line).unwrap();
    assert_eq!((last.line.len(), session.due()), (0, None));
    assert_eq!(plus(&second.result, &last.result, q), times(&x, &y, [m, k, p], q));
    check_spent(&left, shape);
    check_spent(&right, shape);
}

#[test]
fn shares_add_to_the_product() {
    for (q, m, k, p) in [(7, 1, 2, 1), (31, 1, 30, 1), (2, 3, 4, 5), (1_000_000, 32, 64, 32), (2_147_483_647, 1, 2048, 1)] {
        check_product(Shape::Product { q, m, k, p });
    }
}

fn check_system(shape: Shape) {
    let (q, n) = (shape.modulus(), shape.sides()[0]);
    let size = n as usize;
    let [mut blinders, mut solvers] = pools(shape);
    let (l, x) = (invertible(n, q), residues(size, q));
    let (m, y) = loop {
        let m = invertible(n, q);
        if yuthsaok::has_inverse(q, n, &plus(&l, &m, q)).is_ok() {
            break (m, residues(size, q));
        }
    };
    let (solving, first) = Session::solver(&mut solvers, SLOT, terms(shape), &l, &x).unwrap();
    let (mut solving, mut solvers) = kept(solving, solvers);
    let (blinding, second) = blinder(&mut blinders, SLOT, terms(shape), &m, &y, &first.line);
    assert_eq!((blinding.due(), second.result.len()), (Some(3), 0));
    let (mut blinding, mut blinders) = kept(blinding, blinders);

    let third = solving.next(&mut solvers, SLOT, &second.line).unwrap();
    let (mut solving, mut solvers) = kept(solving, solvers);
    let fourth = blinding.next(&mut blinders, SLOT, &third.line).unwrap();
    assert_eq!((blinding.due(), fourth.result.len()), (Some(5), 0));
    let (mut blinding, mut blinders) = kept(blinding, blinders);
    let fifth = solving.next(&mut solvers, SLOT, &fourth.line).unwrap();
    assert_eq!((solving.is_open(), fifth.result.len()), (false, 0));
    let last = blinding.next(&mut blinders, SLOT, &fifth.line).unwrap();

    assert_eq!(times(&plus(&l, &m, q), &last.result, [size, size, 1], q), plus(&x, &y, q));
    assert!(blinding.to_bytes()[32..].iter().all(|byte| *byte == 0));
    check_spent(&blinders, shape);
    check_spent(&solvers, shape);
}

#[test]
fn the_blinder_learns_the_solution() {
    for (q, n) in [(5, 1), (3, 2), (101, 4), (2_147_483_647, 3), (2_147_483_647, 16)] {
        check_system(Shape::System { q, n });
    }
}

/// The answer of a whole session; all lines of it are of the determinant's kinds.
fn determined(shape: Shape, l: &[u32], m: &[u32]) -> u32 {
    let [mut blinders, mut solvers] = pools(shape);
    let (solving, first) = Session::solver(&mut solvers, SLOT, terms(shape), l, &[]).unwrap();
    let (mut solving, mut solvers) = kept(solving, solvers);
    let (blinding, second) = blinder(&mut blinders, SLOT, terms(shape), m, &[], &first.line);
    let (mut blinding, mut blinders) = kept(blinding, blinders);
    let third = solving.next(&mut solvers, SLOT, &second.line).unwrap();
    let (mut solving, mut solvers) = kept(solving, solvers);
    let fourth = blinding.next(&mut blinders, SLOT, &third.line).unwrap();
    assert_eq!((blinding.shape(), blinding.due(), fourth.result.len()), (shape, Some(6), 0));
    let (mut blinding, mut blinders) = kept(blinding, blinders);
    let sixth = solving.next(&mut solvers, SLOT, &fourth.line).unwrap();
    assert_eq!((solving.is_open(), sixth.result.len()), (false, 0));
    let last = blinding.next(&mut blinders, SLOT, &sixth.line).unwrap();

    let lines = [first, second, third, fourth, sixth].map(|step| step.line);
    assert_eq!(lines.each_ref().map(|line| Head::of(line).unwrap().kind), [1, 2, 3, 4, 6]);
    assert!(lines.iter().all(|line| line.len() <= shape.line_bytes(Head::of(line).unwrap().kind)));
    assert_eq!((last.line.len(), last.result.len(), blinding.is_open()), (0, 1, false));
    assert!(blinding.to_bytes()[32..].iter().all(|byte| *byte == 0));
    check_spent(&blinders, shape);
    check_spent(&solvers, shape);
    last.result[0]
}

#[test]
fn the_blinder_learns_the_determinant() {
    for (q, n) in [(2, 1), (5, 1), (2, 3), (3, 2), (101, 4), (2_147_483_647, 5)] {
        let (l, m) = (invertible(n, q), invertible(n, q));
        assert_eq!(determined(Shape::Determinant { q, n }, &l, &m), determinant(&plus(&l, &m, q), n as usize, q), "n {n} modulo {q}");
    }
}

/// L and M that have an inverse, of 16 rows, whose sum has zeros below its diagonal, and the product of the diagonal.
fn triangular_sum(q: u32) -> (Vec<u32>, Vec<u32>, u32) {
    loop {
        let (l, mut sum) = (invertible(16, q), residues(256, q));
        (0..256).filter(|at| at / 16 > at % 16).for_each(|at| sum[at] = 0);
        let m = plus(&sum, &less(&l, q), q);
        if yuthsaok::has_inverse(q, 16, &m).is_ok() {
            let product = (0..16).fold(1, |product, i| product * u64::from(sum[17 * i]) % u64::from(q));
            return (l, m, product as u32);
        }
    }
}

fn less(matrix: &[u32], q: u32) -> Vec<u32> {
    matrix.iter().map(|x| (q - x) % q).collect()
}

#[test]
fn the_largest_determinant() {
    let q = 2_147_483_647;
    let (l, m, product) = triangular_sum(q);
    assert_eq!(determined(Shape::Determinant { q, n: 16 }, &l, &m), product);
}

/// A sum without an inverse is no refusal: its determinant is 0.
#[test]
fn a_determinant_may_be_zero() {
    for (q, n) in [(2, 1), (2, 3), (257, 2), (2_147_483_647, 16)] {
        let l = invertible(n, q);
        assert_eq!(determined(Shape::Determinant { q, n }, &l, &less(&l, q)), 0);
    }
    let (terms, [mut blinders, mut solvers]) = known_determinant();
    let (mut solving, first) = Session::solver(&mut solvers, SLOT, terms, &[2], &[]).unwrap();
    let (mut blinding, second) = Session::blinder(&mut blinders, SLOT, terms, &[3], &[], &[2, 1], &first.line).unwrap();
    let third = solving.next(&mut solvers, SLOT, &second.line).unwrap();
    let fourth = blinding.next(&mut blinders, SLOT, &third.line).unwrap();
    let sixth = solving.next(&mut solvers, SLOT, &fourth.line).unwrap();
    let lines = [first.line, second.line, third.line, fourth.line, sixth.line].concat();
    let written = "1,9,4,5,1,1,1,3\n2,9,4,5,1,1,1,3,0\n3,9,4,5,1,1,1,4\n4,9,4,5,1,1,1,3\n6,9,4,5,1,1,1,0\n";
    assert_eq!(String::from_utf8(lines).unwrap(), written);
    assert_eq!(blinding.next(&mut blinders, SLOT, written[written.len() - 16..].as_bytes()).unwrap().result, [0]);
}

#[test]
fn a_singular_sum_closes_the_solver() {
    let (terms, [mut blinders, mut solvers]) = known_system();
    let (mut solving, first) = Session::solver(&mut solvers, SLOT, terms, &[2], &[3]).unwrap();
    let (mut blinding, second) = Session::blinder(&mut blinders, SLOT, terms, &[3], &[1], &[2, 1, 2], &first.line).unwrap();
    let third = solving.next(&mut solvers, SLOT, &second.line).unwrap();
    let fourth = blinding.next(&mut blinders, SLOT, &third.line).unwrap();

    assert_eq!(solving.next(&mut solvers, SLOT, &fourth.line), Err(Refusal::Singular));
    assert!(!solving.is_open());
    check_spent(&solvers, terms.shape);
    assert_eq!(solving.next(&mut solvers, SLOT, &fourth.line), Err(Refusal::Turn));
    assert_eq!(blinding.give_up(&mut blinders, SLOT), Ok(()));
    check_spent(&blinders, terms.shape);
}

#[test]
fn given_up_sessions_are_closed_and_their_tapes_spent() {
    let (terms, [_, mut right]) = known_product();
    let (mut session, _) = Session::right(&mut right, SLOT, terms, &[2, 6]).unwrap();
    assert_eq!(session.give_up(&mut right, Slot(0)), Err(Refusal::Mark));
    assert_eq!((session.give_up(&mut right, SLOT), session.due()), (Ok(()), None));
    assert_eq!(session.give_up(&mut right, SLOT), Err(Refusal::Turn));
    check_spent(&right, terms.shape);

    let (terms, [mut blinders, mut solvers]) = known_system();
    let (mut solving, first) = Session::solver(&mut solvers, SLOT, terms, &[2], &[3]).unwrap();
    let (mut blinding, _) = Session::blinder(&mut blinders, SLOT, terms, &[1], &[1], &[2, 1, 2], &first.line).unwrap();
    assert_eq!((solving.give_up(&mut solvers, SLOT), blinding.give_up(&mut blinders, SLOT)), (Ok(()), Ok(())));
    assert!(blinding.to_bytes()[32..].iter().all(|byte| *byte == 0));
    check_spent(&blinders, terms.shape);
    check_spent(&solvers, terms.shape);
}

#[test]
fn determinants_are_given_up_at_every_stage() {
    for stage in 0..3 {
        let (terms, [mut blinders, mut solvers]) = known_determinant();
        let (mut solving, first) = Session::solver(&mut solvers, SLOT, terms, &[2], &[]).unwrap();
        let (mut blinding, second) = Session::blinder(&mut blinders, SLOT, terms, &[1], &[], &[2, 1], &first.line).unwrap();
        if stage > 0 {
            let third = solving.next(&mut solvers, SLOT, &second.line).unwrap();
            if stage > 1 {
                blinding.next(&mut blinders, SLOT, &third.line).unwrap();
            }
        }
        assert_eq!((solving.give_up(&mut solvers, SLOT), blinding.give_up(&mut blinders, SLOT)), (Ok(()), Ok(())));
        assert_eq!(blinding.give_up(&mut blinders, SLOT), Err(Refusal::Turn));
        assert!(blinding.to_bytes()[32..].iter().all(|byte| *byte == 0));
        check_spent(&blinders, terms.shape);
        check_spent(&solvers, terms.shape);
    }
}

#[test]
fn a_session_tells_its_terms() {
    let (terms, [_, mut solvers]) = known_system();
    let (session, _) = Session::solver(&mut solvers, SLOT, terms, &[2], &[3]).unwrap();
    assert_eq!((session.end(), session.terms(), session.due()), (End::Solver, terms, Some(2)));
    assert_eq!((session.session_number(), session.tape_number()), (SessionNumber(9), TapeNumber(4)));
    assert_eq!(solvers.find(session.tape_number()), Some(SLOT));
    assert_eq!(solvers.find(TapeNumber(0)), None);
}

#[test]
fn bytes_that_are_no_session_are_refused() {
    let (terms, [mut blinders, mut solvers]) = known_system();
    let (_, first) = Session::solver(&mut solvers, SLOT, terms, &[2], &[3]).unwrap();
    let (session, _) = Session::blinder(&mut blinders, SLOT, terms, &[1], &[1], &[2, 1, 2], &first.line).unwrap();
    let bytes = session.to_bytes();
    assert_eq!(bytes.len(), 1120 + 12);
    for wrong in [&bytes[..0], &bytes[..1119], &bytes[..1120], &bytes[..1131], &[0; 1120]] {
        assert_eq!(Session::from_bytes(wrong), Err(Refusal::Size));
    }
    assert_eq!(Session::from_bytes(&[bytes, vec![0]].concat()), Err(Refusal::Size));

    // a determinant's scratch is shorter
    let (terms, [mut blinders, _]) = known_determinant();
    let (session, _) = Session::blinder(&mut blinders, SLOT, terms, &[1], &[], &[2, 1], b"1,9,4,5,1,1,1,3\n").unwrap();
    assert_eq!((session.to_bytes().len(), session.terms()), (1120 + 8, terms));
    assert_eq!(Session::from_bytes(&[session.to_bytes(), vec![0; 4]].concat()), Err(Refusal::Size));
}

#[test]
fn bytes_of_any_kind_are_answered() {
    let mut bytes = vec![0xff; 1120];
    for end in End::ALL {
        bytes[..4].copy_from_slice(&end.number().to_le_bytes());
        let mut session = Session::from_bytes(&bytes).unwrap();
        let mut pool = Pool::new(10, 1);
        assert!(session.next(&mut pool, Slot(0), b"1,1,1,7,1,1,1,0\n").is_err());
        assert!(session.give_up(&mut pool, Slot(0)).is_err());
        assert_eq!(session.to_bytes(), bytes);
    }
}

#[test]
fn nothing_prints_secrets() {
    let (terms, [mut left, mut right]) = known_product();
    let (session, first) = Session::right(&mut right, SLOT, terms, &[2, 6]).unwrap();
    let (_, second) = Session::left(&mut left, SLOT, terms, &[3, 5], &[5], &first.line).unwrap();
    assert_eq!(format!("{right:?}"), "Pool { slot_words: 10, slots: 2, .. }");
    assert_eq!(format!("{second:?}"), "Step { line_bytes: 20, result_words: 1, words_read: 1 }");
    let shown = "Session { end: Right, terms: Terms { session: SessionNumber(9), tape: TapeNumber(4), \
                 shape: Product { q: 7, m: 1, k: 2, p: 1 } }, due: Some(2), .. }";
    assert_eq!(format!("{session:?}"), shown);
}

/// A first step that nobody is told of frees a slot (docs/HOSTS.md, "Giving up").
#[test]
fn a_half_is_spent_without_a_message() {
    let made_up = |shape: Shape, residues: usize| {
        let [m, k, p] = shape.sides();
        format!("1,9,4,{},{m},{k},{p}{}\n", shape.modulus(), ",0".repeat(residues)).into_bytes()
    };
    let product = Shape::Product { q: 31, m: 2, k: 5, p: 3 };
    let [mut left, mut right] = pools(product);
    Session::left(&mut left, SLOT, terms(product), &[0; 10], &random_words(6), &made_up(product, 15)).unwrap();
    let (mut session, _) = Session::right(&mut right, SLOT, terms(product), &[0; 15]).unwrap();
    session.give_up(&mut right, SLOT).unwrap();
    check_spent(&left, product);
    check_spent(&right, product);

    for (shape, vector) in [(Shape::System { q: 101, n: 2 }, &[0, 0][..]), (Shape::Determinant { q: 101, n: 2 }, &[])] {
        let [mut first, mut second] = pools(shape);
        let line = made_up(shape, 4 + vector.len());
        let (mut session, _) = blinder(&mut first, SLOT, terms(shape), &[1, 0, 0, 1], vector, &line);
        session.give_up(&mut first, SLOT).unwrap();
        let (mut session, _) = Session::solver(&mut second, SLOT, terms(shape), &[1, 0, 0, 1], vector).unwrap();
        session.give_up(&mut second, SLOT).unwrap();
        check_spent(&first, shape);
        check_spent(&second, shape);
    }
}
