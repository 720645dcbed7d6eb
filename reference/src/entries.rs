//! The entries on bytes (RULES 11 and 12.3): what they are handed and lent, and what they answer. `answers` has them by the rules; the
//! engine has them, too.

use std::fmt;

use crate::faults::word;
use crate::Terms;

/// The bytes of a record.
pub const RECORD: usize = 1120;

/// What a dealing, a step or a drop answers: 0 or the number of the refusal, raw words read, bytes of the line written.
#[repr(C)]
#[derive(Clone, Copy, Debug, Default, PartialEq, Eq)]
pub struct Reply {
    pub number: u32,
    pub read: usize,
    pub bytes: usize,
}

/// For a reader: the refusal by its word.
impl fmt::Display for Reply {
    fn fmt(&self, f: &mut fmt::Formatter) -> fmt::Result {
        match self.number {
            0 => write!(f, "accepted, value {}, {} bytes written", self.read, self.bytes),
            number if word(number).is_empty() => write!(f, "answered by {number}, which is no refusal"),
            number if (self.read, self.bytes) == (0, 0) => write!(f, "refused as {}", word(number)),
            number => write!(f, "refused as {}, and yet value {}, {} bytes written", word(number), self.read, self.bytes),
        }
    }
}

#[repr(C)]
#[derive(Clone, Copy, Debug, Default, PartialEq, Eq)]
pub struct Residue {
    pub number: u32,
    pub residue: u32,
}

#[repr(C)]
#[derive(Clone, Copy, Debug, Default, PartialEq, Eq)]
pub struct Score {
    pub number: u32,
    pub score: i32,
}

#[repr(C)]
#[derive(Clone, Copy, Debug, Default, PartialEq, Eq)]
pub struct Share {
    pub number: u32,
    pub share: u32,
}

/// The tape that a call works on.
pub struct Slot<'a> {
    pub pool: &'a mut [u8],
    pub size: usize,
    pub index: usize,
}

/// A dealing. The second pool is cut as the first; of the terms the session is not handed over.
pub struct Deal<'a> {
    pub sort: u32,
    pub slot: Slot<'a>,
    pub second: &'a mut [u8],
    pub terms: Terms,
    pub words: &'a [u8],
}

/// A first step.
pub struct First<'a> {
    pub record: &'a mut [u8],
    pub end: u32,
    pub slot: Slot<'a>,
    pub terms: Terms,
    pub input: &'a [u8],
    pub words: &'a [u8],
    pub scratch: &'a mut [u8],
    pub message: &'a [u8],
    pub line: &'a mut [u8],
    pub result: &'a mut [u8],
}

/// A later step.
pub struct Next<'a> {
    pub record: &'a mut [u8],
    pub slot: Slot<'a>,
    pub scratch: &'a mut [u8],
    pub message: &'a [u8],
    pub line: &'a mut [u8],
    pub result: &'a mut [u8],
}

/// A drop.
pub struct Dropping<'a> {
    pub record: &'a mut [u8],
    pub slot: Slot<'a>,
    pub scratch: &'a mut [u8],
}

pub trait Entries {
    fn deal(call: Deal) -> Reply;
    fn first(call: First) -> Reply;
    fn next(call: Next) -> Reply;
    fn drop(call: Dropping) -> Reply;
    fn version() -> u32;
    fn record_words() -> usize;
    fn tape_words(end: u32, m: u32, k: u32, p: u32) -> usize;
    fn scratch_words(end: u32, m: u32, k: u32, p: u32) -> usize;
    fn line_bytes(kind: u32, q: u32, m: u32, k: u32, p: u32) -> usize;
    fn coin_count(end: u32, m: u32, k: u32, p: u32) -> usize;
    fn deal_count(sort: u32, m: u32, k: u32, p: u32) -> usize;
    fn is_prime(n: u32) -> u32;
    fn has_inverse(q: u32, n: u32, matrix: &[u8]) -> u32;
    fn to_residue(q: u32, score: i32) -> Residue;
    fn to_score(q: u32, residue: u32) -> Score;
    fn refusal_word(number: u32, word: &mut [u8]) -> usize;
    fn window_share(q: u32, shares: &[u8], first: usize, w: usize) -> Share;
    fn next_window(q: u32, shares: &[u8], first: usize, w: usize, share: u32) -> Share;
    fn flags_fit(flags: &[u8]) -> u32;
}
