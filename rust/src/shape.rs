//! What is worked out, modulo what and how large; and every size that follows from it.

use std::fmt;

use crate::names::{End, SessionNumber, TapeNumber};
use crate::slices;

/// A product, a system or a determinant, with its modulus and its sides.
///
/// The numbers may be any: where they are out of bounds the sizes are 0, and the calls refuse. So it is with an end of another sort.
///
/// ```
/// use yuthsaok::{End, Shape};
///
/// let shape = Shape::Product { q: 7, m: 1, k: 2, p: 1 };
/// assert_eq!(shape.tape_words(End::Left), 10);
/// assert_eq!(shape.slot_words(), 10);
/// assert_eq!(shape.deal_count(), 5);
/// assert_eq!((shape.input_words(End::Right), shape.result_words(End::Right)), (2, 1));
/// assert_eq!(shape.tape_words(End::Solver), 0);
/// assert_eq!(Shape::System { q: 5, n: 17 }.slot_words(), 0);
/// assert_eq!(Shape::Determinant { q: 5, n: 3 }.result_words(End::Blinder), 1);
/// ```
#[derive(Clone, Copy, Debug, PartialEq, Eq, Hash)]
pub enum Shape {
    /// X, which is m by k, times Y, which is k by p.
    Product {
        /// The modulus, 2 to 2,147,483,647.
        q: u32,
        /// The rows of X, 1 to 32.
        m: u32,
        /// The columns of X and rows of Y, 1 to 2,048; m·k and k·p are at most 2,048.
        k: u32,
        /// The columns of Y, 1 to 32.
        p: u32,
    },
    /// The z with (L + M) z = x + y.
    System {
        /// The modulus, a prime up to 2,147,483,647.
        q: u32,
        /// The unknowns, 1 to 16.
        n: u32,
    },
    /// The determinant of L + M: a system without its vectors x and y. A sum without an inverse answers 0.
    Determinant {
        /// The modulus, a prime up to 2,147,483,647.
        q: u32,
        /// The rows and columns of L and of M, 1 to 16.
        n: u32,
    },
}

/// What the two ends of a session agree on beforehand.
///
/// ```
/// use yuthsaok::{SessionNumber, Shape, TapeNumber, Terms};
///
/// let shape = Shape::Product { q: 31, m: 1, k: 30, p: 1 };
/// let terms = Terms { session: SessionNumber(9), tape: TapeNumber(4), shape };
/// assert_eq!(terms.shape.modulus(), 31);
/// ```
#[derive(Clone, Copy, Debug, PartialEq, Eq, Hash)]
pub struct Terms {
    /// The session's number.
    pub session: SessionNumber,
    /// The number of the tape that the session uses up.
    pub tape: TapeNumber,
    /// What is worked out.
    pub shape: Shape,
}

impl Shape {
    /// The modulus q.
    pub fn modulus(&self) -> u32 {
        match *self {
            Shape::Product { q, .. } | Shape::System { q, .. } | Shape::Determinant { q, .. } => q,
        }
    }

    /// m, k and p; of a system n, n and n + 1, of a determinant n, n and n.
    pub fn sides(&self) -> [u32; 3] {
        match *self {
            Shape::Product { m, k, p, .. } => [m, k, p],
            Shape::System { n, .. } => [n, n, n.saturating_add(1)],
            Shape::Determinant { n, .. } => [n, n, n],
        }
    }

    /// The words of an end's half of a tape.
    pub fn tape_words(&self, end: End) -> usize {
        slices::tape_words(end.number(), self.sides_for(end))
    }

    /// The words of the longer half: the slot size of two pools that are dealt for this shape alone.
    pub fn slot_words(&self) -> usize {
        let [one, other] = self.ends();
        self.tape_words(one).max(self.tape_words(other))
    }

    /// The words of the scratch that an end's session keeps: 0 for all but the blinder.
    pub fn scratch_words(&self, end: End) -> usize {
        slices::scratch_words(end.number(), self.sides_for(end))
    }

    /// The residues that an end's first step draws: it needs at least as many raw words.
    pub fn coin_count(&self, end: End) -> usize {
        slices::coin_count(end.number(), self.sides_for(end))
    }

    /// The residues that a dealing draws: it needs at least as many raw words.
    pub fn deal_count(&self) -> usize {
        slices::deal_count(self.sort(), self.sides())
    }

    /// The bytes of the longest line of a kind, 1 to 6; 3 and 4 occur in systems and determinants alone, 5 in systems, 6 in determinants.
    pub fn line_bytes(&self, kind: u32) -> usize {
        if kind > 2 && self.is_product() {
            return 0;
        }
        slices::line_bytes(kind, self.modulus(), self.sides())
    }

    /// The words of an end's input: of its matrix and, in a system, of its vector.
    pub fn input_words(&self, end: End) -> usize {
        let [m, k, p] = self.fitting_sides(end);
        match end {
            End::Left => m * k,
            End::Right => k * p,
            End::Blinder | End::Solver => m * p,
        }
    }

    /// The words of what an end learns: its share of a product, the blinder's z, or its determinant.
    pub fn result_words(&self, end: End) -> usize {
        let [m, _, p] = self.fitting_sides(end);
        match end {
            End::Left | End::Right => m * p,
            // one, where the sides are in bounds
            End::Blinder if self.is_determinant() => m.min(1),
            End::Blinder => m,
            End::Solver => 0,
        }
    }

    /// Its two ends: the one that the first pool of a dealing belongs to, and the one that begins.
    pub fn ends(&self) -> [End; 2] {
        if self.is_product() {
            [End::Left, End::Right]
        } else {
            [End::Blinder, End::Solver]
        }
    }

    fn is_product(&self) -> bool {
        matches!(self, Shape::Product { .. })
    }

    fn is_determinant(&self) -> bool {
        matches!(self, Shape::Determinant { .. })
    }

    /// What the blinder and the solver work out by these sides: a determinant where they are a square's.
    pub(crate) fn of_blinder(q: u32, m: u32, p: u32) -> Shape {
        if p == m {
            Shape::Determinant { q, n: m }
        } else {
            Shape::System { q, n: m }
        }
    }

    /// The kind of the solver's last line.
    pub(crate) fn last_kind(&self) -> u32 {
        if self.is_determinant() {
            6
        } else {
            5
        }
    }

    /// A determinant's tapes are of a system's sort.
    pub(crate) fn sort(&self) -> u32 {
        u32::from(!self.is_product())
    }

    /// The sides as they are handed to the archive for an end: those of another sort would pass as the end's own, and so they are made
    /// such as no session has.
    pub(crate) fn sides_for(&self, end: End) -> [u32; 3] {
        if end.is_of_system() != self.is_product() {
            self.sides()
        } else {
            [0; 3]
        }
    }

    /// The sides where they are in bounds, which keeps their products small; else zeros.
    fn fitting_sides(&self, end: End) -> [usize; 3] {
        if self.tape_words(end) == 0 {
            return [0; 3];
        }
        self.sides().map(|side| side as usize)
    }
}

impl fmt::Display for Shape {
    fn fmt(&self, f: &mut fmt::Formatter) -> fmt::Result {
        match self {
            Shape::Product { q, m, k, p } => write!(f, "a product {m} by {k} by {p} modulo {q}"),
            Shape::System { q, n: 1 } => write!(f, "a system of 1 unknown modulo {q}"),
            Shape::System { q, n } => write!(f, "a system of {n} unknowns modulo {q}"),
            Shape::Determinant { q, n } => write!(f, "a determinant {n} by {n} modulo {q}"),
        }
    }
}
