//! The six steps of a system, and the drops of both ends. Those of a determinant are the same up to the fourth, without the vectors;
//! `determinant` has its last two.

use crate::faults::{Faults, DRY, SINGULAR, SIZE, TURN};
use crate::matrix::Matrix;
use crate::message::{compose, count};
use crate::pool::{End, Place};
use crate::product::{first, later};
use crate::words::draw;
use crate::{Message, Reply, Terms};

/// The solver's session; s is kept between its second step and its last.
#[derive(Clone, Debug, PartialEq, Eq)]
pub struct Solver {
    pub terms: Terms,
    pub due: u32,
    pub s: [u32; 16],
}

/// The blinder's session, with its input.
#[derive(Clone, Debug, PartialEq, Eq)]
pub struct Blinder {
    pub terms: Terms,
    pub due: u32,
    pub m: [u32; 256],
    pub y: [u32; 16],
}

impl Default for Solver {
    fn default() -> Self {
        Solver { terms: Terms::default(), due: 0, s: [0; 16] }
    }
}

impl Default for Blinder {
    fn default() -> Self {
        Blinder { terms: Terms::default(), due: 0, m: [0; 256], y: [0; 16] }
    }
}

impl Solver {
    pub fn closed(&self) -> Self {
        Solver { terms: self.terms, ..Default::default() }
    }
}

impl Blinder {
    pub fn closed(&self) -> Self {
        Blinder { terms: self.terms, ..Default::default() }
    }
}

fn keep<const N: usize>(words: &[u32]) -> [u32; N] {
    let mut kept = [0; N];
    kept[..words.len()].copy_from_slice(words);
    kept
}

/// Words of P and U0 together.
pub fn scratch_size(t: &Terms) -> usize {
    t.rows() * t.rows() + t.rows() * t.columns()
}

/// The words of x, of y, and of s: none in a determinant.
fn vector_size(t: &Terms) -> usize {
    t.rows() * t.vectors()
}

/// A matrix and a vector, as an end's input; singular where the matrix has no inverse.
fn system_input(faults: &mut Faults, t: &Terms, matrix: &[u32], vector: &[u32]) {
    let n = t.rows();
    faults.input(t.q, n * n, matrix);
    faults.input(t.q, vector_size(t), vector);
    regular(faults, t, matrix);
}

/// P and U0, as they stand in a scratch or among the coins.
fn cut(t: &Terms, words: &[u32]) -> (Matrix, Matrix) {
    let (n, p) = (t.rows(), t.columns());
    (Matrix::new(t.q, n, n, &words[..n * n]), Matrix::new(t.q, n, p, &words[n * n..scratch_size(t)]))
}

/// Refusal 10; looked at only where the words are a matrix over the field.
fn regular(faults: &mut Faults, t: &Terms, matrix: &[u32]) {
    let n = t.rows();
    if matrix.len() == n * n && matrix.iter().all(|x| *x < t.q) {
        faults.unless(Matrix::new(t.q, n, n, matrix).is_regular(), SINGULAR);
    }
}

pub fn solver_first(t: Terms, place: &mut Place, l: &[u32], x: &[u32], room: usize) -> (Reply, Solver) {
    let mut faults = Faults::new();
    first(&mut faults, End::Solver, &t, place);
    if faults.none_to(SIZE) {
        system_input(&mut faults, &t, l, x);
        faults.room(count(1, &t), room);
    }
    if faults.lowest() != 0 {
        return (Reply::refused(faults.lowest()), Solver::default());
    }
    let n = t.rows();
    let half = place.half(End::Solver, &t);
    let y1 = Matrix::new(t.q, n, n, l).beside(&Matrix::new(t.q, n, t.vectors(), x)).minus(&half[0]);
    place.mark(2);
    (Reply { message: compose(1, t, &[y1]), ..Default::default() }, Solver { terms: t, due: 2, s: [0; 16] })
}

#[allow(clippy::too_many_arguments)]
pub fn blinder_first(
    t: Terms,
    place: &mut Place,
    scratch: &mut [u32],
    m: &[u32],
    y: &[u32],
    words: &[u32],
    a: &Message,
    room: usize,
) -> (Reply, Blinder) {
    let mut faults = Faults::new();
    faults.message(a);
    faults.due(1, &t, a);
    first(&mut faults, End::Blinder, &t, place);
    if !faults.none_to(SIZE) {
        return (Reply::refused(faults.lowest()), Blinder::default());
    }
    let n = t.rows();
    system_input(&mut faults, &t, m, y);
    faults.room(scratch_size(&t), scratch.len());
    faults.room(count(2, &t), room);
    let drawn = draw(t.q, scratch_size(&t), words);
    faults.unless(drawn.is_some(), DRY);
    if let Some((coins, _)) = &drawn {
        regular(&mut faults, &t, &coins[..n * n]);
    }
    if faults.lowest() != 0 {
        return (Reply::refused(faults.lowest()), Blinder::default());
    }
    let (coins, read) = drawn.unwrap();
    let (pm, u0) = cut(&t, &coins);
    let half = place.half(End::Blinder, &t);
    let r1 = pm.times(&a.parts()[0]).minus(&u0).minus(&half[1]);
    scratch[..coins.len()].copy_from_slice(&coins);
    place.mark(2);
    let session = Blinder { terms: t, due: 3, m: keep(m), y: keep(y) };
    (Reply { read, message: compose(2, t, &[pm.plus(&half[0]), r1]), ..Default::default() }, session)
}

/// The faults of a later step of the solver, or of its message.
pub fn solver_later(kind: u32, s: &Solver, place: &Place, a: &Message, reply: u32, room: usize) -> Faults {
    let t = &s.terms;
    let mut faults = Faults::new();
    faults.message(a);
    later(&mut faults, End::Solver, s.due, t, place, true);
    faults.unless(s.due == kind, TURN);
    faults.due(kind, t, a);
    if s.due != 0 && faults.none_to(SIZE) {
        faults.room(count(reply, t), room);
        faults.residues(t.q, &s.s[..vector_size(t)]);
    }
    faults
}

pub fn solver_second(s: Solver, place: &mut Place, a: &Message, room: usize) -> (Reply, Solver) {
    let faults = solver_later(2, &s, place, a, 3, room);
    if faults.lowest() != 0 {
        return (Reply::refused(faults.lowest()), s);
    }
    let (t, n) = (s.terms, s.terms.rows());
    let half = place.half(End::Solver, &t);
    let parts = a.parts();
    let share = parts[0].times(&half[0]).plus(&parts[1]).minus(&half[1]);
    let f = half[2].minus(&share.columns(0, n));
    let next = Solver { terms: t, due: 4, s: keep(&share.columns(n, t.columns()).words()) };
    (Reply { message: compose(3, t, &[f]), ..Default::default() }, next)
}

/// The faults of a later step of the blinder, or of its message. What is written needs so many words.
pub fn blinder_later(
    kind: u32,
    s: &Blinder,
    place: &Place,
    scratch: &[u32],
    a: &Message,
    needed: fn(&Terms) -> usize,
    room: usize,
) -> Faults {
    let t = &s.terms;
    let n = t.rows();
    let mut faults = Faults::new();
    faults.message(a);
    later(&mut faults, End::Blinder, s.due, t, place, true);
    faults.unless(s.due == kind, TURN);
    faults.due(kind, t, a);
    if s.due != 0 && faults.none_to(SIZE) {
        faults.room(scratch_size(t), scratch.len());
        faults.room(needed(t), room);
        if faults.none_to(SIZE) {
            faults.residues(t.q, &s.m[..n * n]);
            faults.residues(t.q, &s.y[..vector_size(t)]);
            faults.residues(t.q, &scratch[..scratch_size(t)]);
        }
    }
    faults
}

pub fn blinder_second(s: Blinder, place: &mut Place, scratch: &[u32], a: &Message, room: usize) -> (Reply, Blinder) {
    let faults = blinder_later(3, &s, place, scratch, a, |t| count(4, t), room);
    if faults.lowest() != 0 {
        return (Reply::refused(faults.lowest()), s);
    }
    let (t, n) = (s.terms, s.terms.rows());
    let half = place.half(End::Blinder, &t);
    let (qm, g) = (&half[2], &half[3]);
    let (pm, u0) = cut(&t, scratch);
    let (m, y) = (Matrix::new(t.q, n, n, &s.m[..n * n]), Matrix::new(t.q, n, t.vectors(), &s.y[..vector_size(&t)]));
    let w = u0.columns(0, n).minus(&a.parts()[0]).times(qm).plus(&pm.times(&m).times(qm)).minus(g);
    let c = u0.columns(n, t.columns()).plus(&pm.times(&y));
    (Reply { message: compose(4, t, &[w, c]), ..Default::default() }, Blinder { due: t.last_kind(), ..s })
}

pub fn solver_last(s: Solver, place: &mut Place, a: &Message, room: usize) -> (Reply, Solver) {
    let mut faults = solver_later(4, &s, place, a, 5, room);
    faults.unless(s.terms.last_kind() == 5, TURN);
    if faults.lowest() != 0 {
        return (Reply::refused(faults.lowest()), s);
    }
    let (t, n) = (s.terms, s.terms.rows());
    let half = place.half(End::Solver, &t);
    let parts = a.parts();
    let right_side = parts[1].plus(&Matrix::new(t.q, n, 1, &s.s[..n]));
    let inverse = parts[0].plus(&half[3]).inverse();
    place.spend(End::Solver, &t);
    let reply = match inverse {
        Some(inverse) => Reply { message: compose(5, t, &[inverse.times(&right_side)]), ..Default::default() },
        None => Reply::refused(SINGULAR),
    };
    (reply, s.closed())
}

pub fn blinder_last(s: Blinder, place: &mut Place, scratch: &mut [u32], a: &Message, room: usize) -> (Reply, Blinder) {
    let faults = blinder_later(5, &s, place, scratch, a, Terms::rows, room);
    if faults.lowest() != 0 {
        return (Reply::refused(faults.lowest()), s);
    }
    let t = s.terms;
    let z = place.half(End::Blinder, &t)[2].times(&a.parts()[0]);
    place.spend(End::Blinder, &t);
    scratch[..scratch_size(&t)].fill(0);
    (Reply { result: z.words(), ..Default::default() }, s.closed())
}

pub fn solver_drop(s: Solver, place: &mut Place) -> (Reply, Solver) {
    let mut faults = Faults::new();
    later(&mut faults, End::Solver, s.due, &s.terms, place, false);
    if faults.lowest() != 0 {
        return (Reply::refused(faults.lowest()), s);
    }
    place.spend(End::Solver, &s.terms);
    (Reply::default(), s.closed())
}

pub fn blinder_drop(s: Blinder, place: &mut Place, scratch: &mut [u32]) -> (Reply, Blinder) {
    let mut faults = Faults::new();
    later(&mut faults, End::Blinder, s.due, &s.terms, place, false);
    if s.due != 0 && faults.none_to(SIZE) {
        faults.room(scratch_size(&s.terms), scratch.len());
    }
    if faults.lowest() != 0 {
        return (Reply::refused(faults.lowest()), s);
    }
    place.spend(End::Blinder, &s.terms);
    scratch[..scratch_size(&s.terms)].fill(0);
    (Reply::default(), s.closed())
}
