//! What a message must look like, by itself and to the step that takes it.

use crate::faults::{Faults, FORM, SIZE, STRANGER, TURN};
use crate::matrix::Matrix;
use crate::{Message, Terms};

pub fn is_kind(kind: u32) -> bool {
    (1..=6).contains(&kind)
}

/// Kind 5 is of a system alone, and kind 6 of a determinant alone.
pub fn is_kind_of(kind: u32, t: &Terms) -> bool {
    kind < 5 || kind == t.last_kind()
}

/// Height and width of each part of a message of a kind.
pub fn shapes(kind: u32, t: &Terms) -> Vec<(usize, usize)> {
    let (m, k, p) = (t.rows(), t.inner(), t.columns());
    match kind {
        1 => vec![(k, p)],
        2 => vec![(m, k), (m, p)],
        3 => vec![(m, k)],
        4 => vec![(m, k), (m, t.vectors())],
        5 => vec![(m, t.vectors())],
        _ => vec![(1, 1)],
    }
}

pub fn count(kind: u32, t: &Terms) -> usize {
    shapes(kind, t).iter().map(|(h, w)| h * w).sum()
}

/// A message of a session from its parts.
pub fn compose(kind: u32, terms: Terms, parts: &[Matrix]) -> Message {
    Message { kind, terms, residues: parts.iter().flat_map(Matrix::words).collect() }
}

impl Message {
    pub fn parts(&self) -> Vec<Matrix> {
        let mut from = 0;
        let mut cut = |(h, w): (usize, usize)| {
            from += h * w;
            Matrix::new(self.terms.q, h, w, &self.residues[from - h * w..from])
        };
        shapes(self.kind, &self.terms).into_iter().map(|shape| cut(shape)).collect()
    }
}

impl Faults {
    /// What a message shows by itself.
    pub fn message(&mut self, a: &Message) {
        self.unless(is_kind(a.kind), FORM);
        self.terms(a.kind > 2, &a.terms);
        self.unless(is_kind_of(a.kind, &a.terms), SIZE);
        // the count is of use only where the sides fit
        if self.none_to(SIZE) {
            self.unless(a.residues.len() == count(a.kind, &a.terms), SIZE);
        }
        self.residues(a.terms.q, &a.residues);
    }

    /// The message is the one due in the session.
    pub fn due(&mut self, kind: u32, t: &Terms, a: &Message) {
        self.unless(a.kind == kind, TURN);
        self.unless(a.terms == *t, STRANGER);
    }

    /// A slice that is to be written has room for so many words.
    pub fn room(&mut self, count: usize, room: usize) {
        self.unless(count <= room, SIZE);
    }
}
