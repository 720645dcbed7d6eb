//! Why a call is refused.

use std::fmt;

/// Why a call was refused, by its number in RULES 8.2. Where several apply it is the one with the lowest number, and nothing has changed,
/// save for a singular sum at the solver's last step (see [`Session::next`](crate::Session::next)).
///
/// ```
/// use yuthsaok::Refusal;
///
/// assert_eq!(Refusal::Mark.number(), 6);
/// assert_eq!(Refusal::Mark.word(), "mark");
/// assert_eq!(Refusal::from_number(6), Some(Refusal::Mark));
/// assert_eq!(Refusal::from_number(11), None);
/// let sentence = "refused by 6 (mark): the tape is not ready, in use or free as the call needs it";
/// assert_eq!(Refusal::Mark.to_string(), sentence);
/// ```
#[derive(Clone, Copy, Debug, PartialEq, Eq, PartialOrd, Ord, Hash)]
#[repr(u32)]
pub enum Refusal {
    /// A message is not a line of numbers as it should be, or its kind is unknown.
    Form = 1,
    /// The modulus is below 2 or above 2,147,483,647.
    Modulus = 2,
    /// The modulus of a system or a determinant is not prime.
    Composite = 3,
    /// A side, a count, a slot, a length or a window does not fit, or a number is 0.
    Size = 4,
    /// Not the step or the message that is due, or the session is closed.
    Turn = 5,
    /// The tape is not ready, in use or free as the call needs it.
    Mark = 6,
    /// The numbers of the tape or of the message are not the session's.
    Stranger = 7,
    /// A residue is not below the modulus, a score is out of range, or a flag is above 1.
    Residue = 8,
    /// Too few raw words: bring more, all of them fresh.
    Dry = 9,
    /// A matrix that must have an inverse has none.
    Singular = 10,
}

use Refusal::{Composite, Dry, Form, Mark, Modulus, Residue, Singular, Size, Stranger, Turn};

impl Refusal {
    /// Every refusal, the lowest first.
    pub const ALL: [Refusal; 10] = [Form, Modulus, Composite, Size, Turn, Mark, Stranger, Residue, Dry, Singular];

    /// Its number, 1 to 10.
    pub fn number(self) -> u32 {
        self as u32
    }

    /// The refusal of a number, if it is 1 to 10.
    pub fn from_number(number: u32) -> Option<Refusal> {
        Refusal::ALL.into_iter().find(|refusal| refusal.number() == number)
    }

    /// Its word.
    pub fn word(self) -> &'static str {
        match self {
            Form => "form",
            Modulus => "modulus",
            Composite => "composite",
            Size => "size",
            Turn => "turn",
            Mark => "mark",
            Stranger => "stranger",
            Residue => "residue",
            Dry => "dry",
            Singular => "singular",
        }
    }

    fn reason(self) -> &'static str {
        match self {
            Form => "the message is not a line of numbers as it should be, or its kind is unknown",
            Modulus => "the modulus is below 2 or above 2147483647",
            Composite => "the modulus of a system or a determinant is not prime",
            Size => "a side, a count, a slot, a length or a window does not fit, or a number is 0",
            Turn => "this is not the step or the message that is due, or the session is closed",
            Mark => "the tape is not ready, in use or free as the call needs it",
            Stranger => "the numbers of the tape or of the message are not the session's",
            Residue => "a residue is not below the modulus, a score is out of range, or a flag is above 1",
            Dry => "there are too few raw words",
            Singular => "a matrix that must have an inverse has none",
        }
    }
}

impl fmt::Display for Refusal {
    fn fmt(&self, f: &mut fmt::Formatter) -> fmt::Result {
        write!(f, "refused by {} ({}): {}", self.number(), self.word(), self.reason())
    }
}

impl std::error::Error for Refusal {}

/// The answer of a call that gives a number, 0 where it was done.
pub(crate) fn done(number: u32) -> Result<(), Refusal> {
    match number {
        0 => Ok(()),
        _ => Err(Refusal::from_number(number).expect("the archive gives numbers of the list")),
    }
}
