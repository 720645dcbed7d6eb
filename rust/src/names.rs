//! Ends, numbers and slots: the names by which sessions and tapes are told apart.

use std::fmt;

/// Which part of a session somebody plays.
///
/// ```
/// use yuthsaok::End;
///
/// assert_eq!(End::Solver.number(), 4);
/// assert_eq!(End::from_number(4), Some(End::Solver));
/// assert_eq!(End::Solver.to_string(), "solver");
/// ```
#[derive(Clone, Copy, Debug, PartialEq, Eq, Hash)]
#[repr(u32)]
pub enum End {
    /// Has X of a product, and takes its one step second.
    Left = 1,
    /// Has Y of a product, and begins.
    Right = 2,
    /// Has M and y of a system, or M of a determinant, steps second, and learns z, or the determinant.
    Blinder = 3,
    /// Has L and x of a system, or L of a determinant, and begins.
    Solver = 4,
}

impl End {
    /// Every end.
    pub const ALL: [End; 4] = [End::Left, End::Right, End::Blinder, End::Solver];

    /// Its number, 1 to 4.
    pub fn number(self) -> u32 {
        self as u32
    }

    /// The end of a number, if it is 1 to 4.
    pub fn from_number(number: u32) -> Option<End> {
        End::ALL.into_iter().find(|end| end.number() == number)
    }

    /// Whether it is an end of a system or a determinant, and not of a product.
    pub fn is_of_system(self) -> bool {
        matches!(self, End::Blinder | End::Solver)
    }
}

impl fmt::Display for End {
    fn fmt(&self, f: &mut fmt::Formatter) -> fmt::Result {
        f.pad(match self {
            End::Left => "left",
            End::Right => "right",
            End::Blinder => "blinder",
            End::Solver => "solver",
        })
    }
}

/// The number of a session, from 1 up. It is never taken for a tape's:
///
/// ```
/// # use yuthsaok::{SessionNumber, Shape, TapeNumber, Terms};
/// let shape = Shape::System { q: 5, n: 1 };
/// let terms = Terms { session: SessionNumber(1), tape: TapeNumber(4), shape };
/// ```
///
/// ```compile_fail,E0308
/// # use yuthsaok::{SessionNumber, Shape, TapeNumber, Terms};
/// let shape = Shape::System { q: 5, n: 1 };
/// let terms = Terms { session: TapeNumber(4), tape: SessionNumber(1), shape };
/// ```
#[derive(Clone, Copy, Debug, PartialEq, Eq, PartialOrd, Ord, Hash)]
pub struct SessionNumber(pub u32);

/// The number of a tape, from 1 up. Every tape that is dealt must have one of its own.
#[derive(Clone, Copy, Debug, PartialEq, Eq, PartialOrd, Ord, Hash)]
pub struct TapeNumber(pub u32);

/// The index of a slot in its pool, from 0.
#[derive(Clone, Copy, Debug, PartialEq, Eq, PartialOrd, Ord, Hash)]
pub struct Slot(pub usize);

impl fmt::Display for SessionNumber {
    fn fmt(&self, f: &mut fmt::Formatter) -> fmt::Result {
        self.0.fmt(f)
    }
}

impl fmt::Display for TapeNumber {
    fn fmt(&self, f: &mut fmt::Formatter) -> fmt::Result {
        self.0.fmt(f)
    }
}

impl fmt::Display for Slot {
    fn fmt(&self, f: &mut fmt::Formatter) -> fmt::Result {
        self.0.fmt(f)
    }
}
