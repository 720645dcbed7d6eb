//! Two parties with dealt pools, for the tests of sessions.
#![allow(dead_code)]

use yuthsaok::random::{os_words, raw_words};
use yuthsaok::{deal, has_inverse, Pool, Refusal, Session, SessionNumber, Shape, Slot, Step, TapeNumber, Terms};

pub const SLOT: Slot = Slot(1);
pub const TAPE: TapeNumber = TapeNumber(4);

pub fn terms(shape: Shape) -> Terms {
    Terms { session: SessionNumber(9), tape: TAPE, shape }
}

pub fn random_words(count: usize) -> Vec<u32> {
    os_words(raw_words(count)).unwrap()
}

/// Residues that are not uniform, which inputs need not be.
pub fn residues(count: usize, q: u32) -> Vec<u32> {
    os_words(count).unwrap().into_iter().map(|word| word % q).collect()
}

pub fn invertible(n: u32, q: u32) -> Vec<u32> {
    loop {
        let matrix = residues((n * n) as usize, q);
        if has_inverse(q, n, &matrix).is_ok() {
            return matrix;
        }
    }
}

/// Two pools of three slots, with a tape in the middle one.
pub fn pools(shape: Shape) -> [Pool; 2] {
    let mut first = Pool::new(shape.slot_words(), 3);
    let mut second = Pool::new(shape.slot_words(), 3);
    while deal(&mut first, &mut second, SLOT, TAPE, shape, &random_words(shape.deal_count())) == Err(Refusal::Singular) {}
    [first, second]
}

/// The pools of README's product and of RULES 9.3's system.
pub fn known_product() -> (Terms, [Pool; 2]) {
    known(Shape::Product { q: 7, m: 1, k: 2, p: 1 }, &[1, 4, 6, 3, 2])
}

pub fn known_system() -> (Terms, [Pool; 2]) {
    known(Shape::System { q: 5, n: 1 }, &[1, 4, 2, 0, 3, 3, 2, 1])
}

/// A determinant whose L 2 and M 1 or 3 answer 3 or 0.
pub fn known_determinant() -> (Terms, [Pool; 2]) {
    known(Shape::Determinant { q: 5, n: 1 }, &[1, 4, 0, 3, 2, 1])
}

fn known(shape: Shape, words: &[u32]) -> (Terms, [Pool; 2]) {
    let mut first = Pool::new(shape.slot_words(), 2);
    let mut second = Pool::new(shape.slot_words(), 2);
    assert_eq!(deal(&mut first, &mut second, SLOT, TAPE, shape, words), Ok(words.len()));
    (terms(shape), [first, second])
}

/// A blinder's first step, with fresh words until P has an inverse.
pub fn blinder(pool: &mut Pool, slot: Slot, terms: Terms, m: &[u32], y: &[u32], message: &[u8]) -> (Session, Step) {
    loop {
        let words = random_words(2 * m.len() + y.len());
        match Session::blinder(pool, slot, terms, m, y, &words, message) {
            Err(Refusal::Singular) => continue,
            done => return done.unwrap(),
        }
    }
}

/// The determinant by minors of the first row, for few rows.
pub fn determinant(a: &[u32], n: usize, q: u32) -> u32 {
    let minor = |j: usize| (n..n * n).filter(|at| at % n != j).map(|at| a[at]).collect::<Vec<_>>();
    let wide = u64::from(q);
    let term = |j: usize| u64::from(a[j]) * u64::from(determinant(&minor(j), n - 1, q)) % wide;
    match n {
        0 => 1 % q,
        _ => ((0..n).fold(0, |sum, j| sum + if j % 2 == 0 { term(j) } else { wide - term(j) }) % wide) as u32,
    }
}

/// A times B modulo q, of m by k and k by p.
pub fn times(a: &[u32], b: &[u32], [m, k, p]: [usize; 3], q: u32) -> Vec<u32> {
    let entry =
        |i: usize, j: usize| (0..k).fold(0, |sum, l| (sum + u64::from(a[i * k + l]) * u64::from(b[l * p + j])) % u64::from(q)) as u32;
    (0..m * p).map(|at| entry(at / p, at % p)).collect()
}

pub fn plus(a: &[u32], b: &[u32], q: u32) -> Vec<u32> {
    assert_eq!(a.len(), b.len());
    a.iter().zip(b).map(|(a, b)| ((u64::from(*a) + u64::from(*b)) % u64::from(q)) as u32).collect()
}
