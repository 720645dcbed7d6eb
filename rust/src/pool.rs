//! Pools of tapes, and the dealing into two of them.

use std::fmt;

use crate::names::{SessionNumber, Slot, TapeNumber};
use crate::refusal::{done, Refusal};
use crate::shape::Shape;
use crate::slices::{self, At, Numbers};
use crate::words;

/// The words of a tape in front of its matrices.
const HEADER: usize = 7;

/// The tapes of one party, in slots of one size.
///
/// A pool is for one end's halves. Its bytes are secret, and each tape in it serves one session: keep them where nobody else reads them,
/// write them back after every call, and never set them back to an older copy. So a pool can't be cloned, and what it prints of itself has
/// no word of a matrix.
///
/// ```
/// use yuthsaok::{deal, Pool, Refusal, Shape, Slot, Status, TapeNumber};
///
/// let shape = Shape::Product { q: 7, m: 1, k: 2, p: 1 };
/// let mut left = Pool::new(shape.slot_words(), 3);
/// let mut right = Pool::new(shape.slot_words(), 3);
/// deal(&mut left, &mut right, Slot(1), TapeNumber(4), shape, &[1, 4, 6, 3, 2])?;
///
/// let left = Pool::from_bytes(left.into_bytes(), 10)?;
/// assert_eq!(left.find(TapeNumber(4)), Some(Slot(1)));
/// assert_eq!(left.tape(Slot(1)).unwrap().status, Status::Ready);
/// assert_eq!(left.tapes().filter(|tape| tape.status == Status::Empty).count(), 2);
/// assert!(left.tape(Slot(3)).is_none());
/// # Ok::<(), Refusal>(())
/// ```
#[derive(PartialEq, Eq)]
pub struct Pool {
    bytes: Vec<u8>,
    slot_words: usize,
}

/// The header of a slot's tape: all its words but the matrices.
///
/// ```
/// use yuthsaok::{deal, Pool, Shape, Slot, Status, TapeNumber};
///
/// let shape = Shape::Product { q: 7, m: 1, k: 2, p: 1 };
/// let (mut left, mut right) = (Pool::new(10, 1), Pool::new(10, 1));
/// deal(&mut left, &mut right, Slot(0), TapeNumber(4), shape, &[1, 4, 6, 3, 2])?;
/// let tape = left.tape(Slot(0)).unwrap();
/// assert_eq!((tape.number, tape.status, tape.shape()), (TapeNumber(4), Status::Ready, Some(shape)));
/// # Ok::<(), yuthsaok::Refusal>(())
/// ```
#[derive(Clone, Copy, Debug, PartialEq, Eq)]
pub struct Tape {
    /// Where it lies.
    pub slot: Slot,
    /// Whether it can still be used.
    pub status: Status,
    /// Its number.
    pub number: TapeNumber,
    /// 0 for a product, 1 for a system or a determinant.
    pub sort: u32,
    /// The modulus.
    pub q: u32,
    /// The rows of X; the unknowns of a system, the rows of a determinant.
    pub m: u32,
    /// The columns of X and rows of Y; else as m.
    pub k: u32,
    /// The columns of Y; one more than the unknowns of a system, and as m in a determinant.
    pub p: u32,
}

/// What can be done with a slot.
///
/// ```
/// use yuthsaok::Status;
///
/// assert_eq!(Status::from_number(2), Status::InUse);
/// assert_eq!(Status::InUse.to_string(), "in use");
/// ```
#[derive(Clone, Copy, Debug, PartialEq, Eq, Hash)]
pub enum Status {
    /// Nothing was dealt here yet.
    Empty,
    /// A tape that no session has used.
    Ready,
    /// A tape whose session is open.
    InUse,
    /// A tape that has served: its matrices are zeros.
    Spent,
    /// None of the four: these are not a tape's words.
    Unknown(u32),
}

impl Pool {
    /// A pool of empty slots.
    ///
    /// # Panics
    /// Where the pool is larger than memory can be.
    pub fn new(slot_words: usize, slots: usize) -> Pool {
        let bytes = slot_words.checked_mul(slots).and_then(|words| words.checked_mul(4)).expect("a pool that fits into memory");
        Pool { bytes: vec![0; bytes], slot_words }
    }

    /// A pool that was kept as bytes; [`Refusal::Size`] where they are not whole words, or the slot size is 0.
    pub fn from_bytes(bytes: Vec<u8>, slot_words: usize) -> Result<Pool, Refusal> {
        if !bytes.len().is_multiple_of(4) || slot_words == 0 {
            return Err(Refusal::Size);
        }
        Ok(Pool { bytes, slot_words })
    }

    /// The bytes, to be kept.
    pub fn as_bytes(&self) -> &[u8] {
        &self.bytes
    }

    /// The bytes, to be kept.
    pub fn into_bytes(self) -> Vec<u8> {
        self.bytes
    }

    /// The words of each slot.
    pub fn slot_words(&self) -> usize {
        self.slot_words
    }

    /// How many whole slots there are.
    pub fn slots(&self) -> usize {
        (self.bytes.len() / 4).checked_div(self.slot_words).unwrap_or(0)
    }

    /// The header of a slot's tape; nothing where the pool has no such slot, or its slots are too short for a header.
    pub fn tape(&self, slot: Slot) -> Option<Tape> {
        let [status, number, sort, q, m, k, p] = words::leading::<HEADER>(self.slot_bytes(slot)?)?;
        Some(Tape { slot, status: Status::from_number(status), number: TapeNumber(number), sort, q, m, k, p })
    }

    /// The headers of all slots.
    pub fn tapes(&self) -> impl Iterator<Item = Tape> + '_ {
        (0..self.slots()).filter_map(|index| self.tape(Slot(index)))
    }

    /// The slot of the tape with a number; empty slots have none.
    pub fn find(&self, number: TapeNumber) -> Option<Slot> {
        self.tapes().find(|tape| tape.number == number && tape.status != Status::Empty).map(|tape| tape.slot)
    }

    /// All bytes of a slot. They are as secret as the pool.
    pub fn slot_bytes(&self, slot: Slot) -> Option<&[u8]> {
        if slot.0 >= self.slots() {
            return None;
        }
        let length = 4 * self.slot_words;
        self.bytes.get(slot.0 * length..(slot.0 + 1) * length)
    }

    pub(crate) fn at(&mut self, slot: Slot) -> At<'_> {
        At { pool: &mut self.bytes, size: self.slot_words, index: slot.0 }
    }
}

impl fmt::Debug for Pool {
    fn fmt(&self, f: &mut fmt::Formatter) -> fmt::Result {
        f.debug_struct("Pool").field("slot_words", &self.slot_words).field("slots", &self.slots()).finish_non_exhaustive()
    }
}

impl Tape {
    /// What the tape was dealt for; nothing where no tape can have this header.
    pub fn shape(&self) -> Option<Shape> {
        let (shape, kind) = match self.sort {
            0 => (Shape::Product { q: self.q, m: self.m, k: self.k, p: self.p }, 1),
            1 => (Shape::of_blinder(self.q, self.m, self.p), 3),
            _ => return None,
        };
        // A message of this kind has a line exactly where modulus and sides are in bounds.
        (shape.sides() == [self.m, self.k, self.p] && shape.line_bytes(kind) > 0).then_some(shape)
    }
}

impl Status {
    /// The status that a tape's word 0 says.
    pub fn from_number(number: u32) -> Status {
        match number {
            0 => Status::Empty,
            1 => Status::Ready,
            2 => Status::InUse,
            3 => Status::Spent,
            _ => Status::Unknown(number),
        }
    }
}

impl fmt::Display for Status {
    fn fmt(&self, f: &mut fmt::Formatter) -> fmt::Result {
        f.pad(match self {
            Status::Empty => "empty",
            Status::Ready => "ready",
            Status::InUse => "in use",
            Status::Spent => "spent",
            Status::Unknown(_) => "unknown",
        })
    }
}

/// Deals a tape into one slot of two pools, the left or blinder's half into the first, and gives how many raw words were read.
///
/// The slot must be empty or spent in both. The words come from a good random source and serve nothing else; [`raw_words`] of
/// [`Shape::deal_count`] are enough. [`Refusal::Singular`] says that the words gave a matrix without an inverse: take fresh ones.
///
/// [`raw_words`]: crate::random::raw_words
///
/// ```
/// use yuthsaok::random::{os_words, raw_words};
/// use yuthsaok::{deal, Pool, Shape, Slot, TapeNumber};
///
/// let shape = Shape::System { q: 2_147_483_647, n: 4 };
/// let mut blinder = Pool::new(shape.slot_words(), 1);
/// let mut solver = Pool::new(shape.slot_words(), 1);
/// let words = os_words(raw_words(shape.deal_count()))?;
/// assert!(deal(&mut blinder, &mut solver, Slot(0), TapeNumber(1), shape, &words)? >= 104);
/// # Ok::<(), Box<dyn std::error::Error>>(())
/// ```
pub fn deal(first: &mut Pool, second: &mut Pool, slot: Slot, tape: TapeNumber, shape: Shape, words: &[u32]) -> Result<usize, Refusal> {
    if first.slot_words != second.slot_words {
        return Err(Refusal::Size);
    }
    let numbers = Numbers { session: SessionNumber(0), tape, q: shape.modulus(), sides: shape.sides() };
    let report = slices::deal(shape.sort(), first.at(slot), &mut second.bytes, numbers, &words::to_bytes(words));
    done(report.number)?;
    Ok(report.read)
}
