//! What a line tells before a step has judged it.

use crate::names::{SessionNumber, TapeNumber};

/// The bytes of the longest line that a step reads, with its byte 10: what a receiver needs room for.
pub const MOST_LINE: usize = 65_536;

/// The first numbers of a line: to which session it belongs, and whether it was taken already. Nothing else of the line is looked at, so it
/// is for the step to say whether it is a message.
///
/// ```
/// use yuthsaok::{Head, SessionNumber, TapeNumber};
///
/// let head = Head::of(b"1,9,4,7,1,2,1,3,3\n").unwrap();
/// assert_eq!((head.kind, head.session, head.tape), (1, SessionNumber(9), TapeNumber(4)));
/// assert_eq!(Head::of(b"good morning\n"), None);
/// assert_eq!(Head::of(b"1,09,4,7\n"), None);
/// ```
#[derive(Clone, Copy, Debug, PartialEq, Eq)]
pub struct Head {
    /// The kind of the message.
    pub kind: u32,
    /// The session that it names.
    pub session: SessionNumber,
    /// The tape that it names.
    pub tape: TapeNumber,
}

impl Head {
    /// The head of a line; nothing where its first three fields are not numbers as a line has them.
    pub fn of(line: &[u8]) -> Option<Head> {
        let mut fields = line.split(|byte| *byte == b',').map(number);
        let mut next = || fields.next().flatten();
        Some(Head { kind: next()?, session: SessionNumber(next()?), tape: TapeNumber(next()?) })
    }
}

/// A number in decimal, with no sign and no zero in front.
fn number(field: &[u8]) -> Option<u32> {
    let is_plain = field.iter().all(u8::is_ascii_digit) && (field[..].first() != Some(&b'0') || field.len() == 1);
    std::str::from_utf8(field).ok().filter(|_| is_plain)?.parse().ok()
}
