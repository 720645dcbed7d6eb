//! Sessions: the first step of each end, the step that is due, and the drop.

use std::fmt;

use crate::names::{End, SessionNumber, Slot, TapeNumber};
use crate::pool::Pool;
use crate::refusal::{done, Refusal};
use crate::shape::{Shape, Terms};
use crate::slices::{self, Handed, Lent, Numbers};
use crate::words;

/// One end's session, from its first step on.
///
/// Every step is handed the pool and the slot that hold the end's half of the tape, and the line that has arrived from the other end, with
/// its byte 10. A step that is refused changes neither the session nor the pool, the singular sum of [`Session::next`] aside, so another
/// line may be tried.
///
/// Between two steps a session may be kept as bytes, for days. They are secret, and go together with the pool's bytes: keep both after
/// every step, and never set either back to an older copy. So a session can't be cloned, and what it prints of itself are its terms alone.
///
/// ```
/// use yuthsaok::{deal, End, Pool, Refusal, Session, SessionNumber, Shape, Slot, TapeNumber, Terms};
///
/// let shape = Shape::Product { q: 7, m: 1, k: 2, p: 1 };
/// let mut left = Pool::new(shape.slot_words(), 1);
/// let mut right = Pool::new(shape.slot_words(), 1);
/// deal(&mut left, &mut right, Slot(0), TapeNumber(4), shape, &[1, 4, 6, 3, 2])?;
///
/// let terms = Terms { session: SessionNumber(9), tape: TapeNumber(4), shape };
/// let (session, step) = Session::right(&mut right, Slot(0), terms, &[2, 6])?;
/// assert_eq!((session.end(), session.due()), (End::Right, Some(2)));
/// assert_eq!(step.line, b"1,9,4,7,1,2,1,3,3\n");
///
/// let mut session = Session::from_bytes(&session.to_bytes())?;
/// assert_eq!(session.next(&mut right, Slot(0), b"good morning\n"), Err(Refusal::Form));
/// session.give_up(&mut right, Slot(0))?;
/// assert!(!session.is_open());
/// # Ok::<(), Refusal>(())
/// ```
#[derive(PartialEq, Eq)]
pub struct Session {
    record: Vec<u8>,
    scratch: Vec<u8>,
}

/// What a step gives. What it prints of itself are counts alone.
///
/// ```
/// let step = yuthsaok::Step { line: b"1,9,4,7,1,2,1,3,3\n".to_vec(), result: vec![], words_read: 0 };
/// assert_eq!(format!("{step:?}"), "Step { line_bytes: 18, result_words: 0, words_read: 0 }");
/// ```
#[derive(Clone, Default, PartialEq, Eq)]
pub struct Step {
    /// The line to be sent to the other end; empty where nothing is sent.
    pub line: Vec<u8>,
    /// What the end has learned, row by row: left's or right's share, the blinder's z, or of a determinant the one residue that is it; empty
    /// before an end's last step, and for the solver, which is given nothing. It is secret.
    pub result: Vec<u32>,
    /// How many raw words were read.
    pub words_read: usize,
}

/// The slices that a step writes, of the sizes that it needs.
struct Room {
    line: Vec<u8>,
    result: Vec<u8>,
}

impl Session {
    /// The left end's one step: it takes the right end's line, and gives left's line and share. The session is closed by it, and the tape
    /// spent. [`Shape::coin_count`] residues are drawn from the raw words, which come from a good random source and serve nothing else.
    pub fn left(pool: &mut Pool, slot: Slot, terms: Terms, x: &[u32], words: &[u32], message: &[u8]) -> Result<(Session, Step), Refusal> {
        Session::begin(End::Left, pool, slot, terms, &words::to_bytes(x), words, message)
    }

    /// The right end's first step: it gives the line for the left end.
    pub fn right(pool: &mut Pool, slot: Slot, terms: Terms, y: &[u32]) -> Result<(Session, Step), Refusal> {
        Session::begin(End::Right, pool, slot, terms, &words::to_bytes(y), &[], &[])
    }

    /// The solver's first step, with its matrix L, which must have an inverse ([`Refusal::Singular`] where it has none), and its vector x,
    /// which is empty in a determinant: it gives the line for the blinder.
    pub fn solver(pool: &mut Pool, slot: Slot, terms: Terms, l: &[u32], x: &[u32]) -> Result<(Session, Step), Refusal> {
        Session::begin(End::Solver, pool, slot, terms, &system_input(terms.shape, l, x), &[], &[])
    }

    /// The blinder's first step, with its matrix M, which must have an inverse, and its vector y, which is empty in a determinant: it takes
    /// the solver's line and gives the blinder's. [`Shape::coin_count`] residues are drawn from the raw words, which come from a good random
    /// source and serve nothing else. [`Refusal::Singular`] says that M or the drawn matrix P has no inverse;
    /// [`has_inverse`](crate::has_inverse) tells of M, and for another P fresh words are needed.
    pub fn blinder(
        pool: &mut Pool,
        slot: Slot,
        terms: Terms,
        m: &[u32],
        y: &[u32],
        words: &[u32],
        message: &[u8],
    ) -> Result<(Session, Step), Refusal> {
        Session::begin(End::Blinder, pool, slot, terms, &system_input(terms.shape, m, y), words, message)
    }

    fn begin(
        end: End,
        pool: &mut Pool,
        slot: Slot,
        terms: Terms,
        input: &[u8],
        words: &[u32],
        message: &[u8],
    ) -> Result<(Session, Step), Refusal> {
        let shape = terms.shape;
        let mut session = Session { record: vec![0; 4 * slices::record_words()], scratch: vec![0; 4 * shape.scratch_words(end)] };
        let mut room = match end {
            End::Left => Room::new(shape.line_bytes(2), shape.result_words(end)),
            End::Blinder => Room::new(shape.line_bytes(2), 0),
            End::Right | End::Solver => Room::new(shape.line_bytes(1), 0),
        };
        let numbers = Numbers { session: terms.session, tape: terms.tape, q: shape.modulus(), sides: shape.sides_for(end) };
        let handed = Handed { input, words: &words::to_bytes(words), message };
        let report = slices::first(end.number(), pool.at(slot), numbers, handed, session.lend(&mut room));
        done(report.number)?;
        Ok((session, room.step(report)))
    }

    /// The step that is due, with the line that has arrived.
    ///
    /// One refusal changes something: where the sum of the two matrices of a system has no inverse, the solver's last step gives
    /// [`Refusal::Singular`], and the session is closed and its tape spent. Nothing is sent; the blinder then gives its session up. The
    /// determinant of such a sum is 0, and no step refuses it.
    pub fn next(&mut self, pool: &mut Pool, slot: Slot, message: &[u8]) -> Result<Step, Refusal> {
        let mut room = self.room_for_next();
        let report = slices::next(pool.at(slot), message, self.lend(&mut room));
        done(report.number)?;
        Ok(room.step(report))
    }

    /// Gives an open session up (the drop): it is closed and its tape spent.
    pub fn give_up(&mut self, pool: &mut Pool, slot: Slot) -> Result<(), Refusal> {
        done(slices::drop(pool.at(slot), &mut self.record, &mut self.scratch).number)
    }

    /// Which end's session it is.
    pub fn end(&self) -> End {
        End::from_number(self.header()[0]).expect("a session's record has its end")
    }

    /// The session's number.
    pub fn session_number(&self) -> SessionNumber {
        SessionNumber(self.header()[1])
    }

    /// The number of its tape: [`Pool::find`] has its slot.
    pub fn tape_number(&self) -> TapeNumber {
        TapeNumber(self.header()[2])
    }

    /// What is worked out.
    pub fn shape(&self) -> Shape {
        let [_, _, _, q, m, k, p, _] = self.header();
        if self.end().is_of_system() {
            Shape::of_blinder(q, m, p)
        } else {
            Shape::Product { q, m, k, p }
        }
    }

    /// All terms of the session.
    pub fn terms(&self) -> Terms {
        Terms { session: self.session_number(), tape: self.tape_number(), shape: self.shape() }
    }

    /// The kind of the message that the next step takes; nothing where the session is closed.
    pub fn due(&self) -> Option<u32> {
        Some(self.header()[7]).filter(|due| *due != 0)
    }

    /// Whether a step is due.
    pub fn is_open(&self) -> bool {
        self.due().is_some()
    }

    /// The session as bytes, to be kept: its record of 1,120, and behind it the blinder's scratch.
    pub fn to_bytes(&self) -> Vec<u8> {
        [&self.record[..], &self.scratch].concat()
    }

    /// A session that was kept as bytes; [`Refusal::Size`] where they are not as long as a session of their end and sides, or name no end.
    pub fn from_bytes(bytes: &[u8]) -> Result<Session, Refusal> {
        let (record, scratch) = bytes.split_at_checked(4 * slices::record_words()).ok_or(Refusal::Size)?;
        let session = Session { record: record.to_vec(), scratch: scratch.to_vec() };
        let end = End::from_number(session.header()[0]).ok_or(Refusal::Size)?;
        if scratch.len() != 4 * session.shape().scratch_words(end) {
            return Err(Refusal::Size);
        }
        Ok(session)
    }

    /// End, session, tape, q, m, k, p, and what is due.
    fn header(&self) -> [u32; 8] {
        words::leading(&self.record).expect("a record is longer than this")
    }

    fn room_for_next(&self) -> Room {
        let (end, shape) = (self.end(), self.shape());
        match (end, self.due()) {
            (End::Right, Some(2)) | (End::Blinder, Some(5 | 6)) => Room::new(0, shape.result_words(end)),
            (End::Solver, Some(2)) => Room::new(shape.line_bytes(3), 0),
            (End::Blinder, Some(3)) => Room::new(shape.line_bytes(4), 0),
            (End::Solver, Some(4)) => Room::new(shape.line_bytes(shape.last_kind()), 0),
            _ => Room::new(0, 0),
        }
    }

    fn lend<'a>(&'a mut self, room: &'a mut Room) -> Lent<'a> {
        Lent { record: &mut self.record, scratch: &mut self.scratch, line: &mut room.line, result: &mut room.result }
    }
}

impl Room {
    fn new(line_bytes: usize, result_words: usize) -> Room {
        Room { line: vec![0; line_bytes], result: vec![0; 4 * result_words] }
    }

    fn step(mut self, report: crate::sys::Report) -> Step {
        self.line.truncate(report.bytes);
        Step { line: self.line, result: words::from_bytes(&self.result), words_read: report.read }
    }
}

/// A matrix and its vector in one run. The archive tells them apart by the sides; a matrix of another length would pass where the vector
/// makes up for it, and so nothing is handed over in its place, which is refused as any wrong length is.
fn system_input(shape: Shape, matrix: &[u32], vector: &[u32]) -> Vec<u8> {
    let n = shape.sides()[0] as usize;
    if n.checked_mul(n) != Some(matrix.len()) {
        return Vec::new();
    }
    words::to_bytes(&[matrix, vector].concat())
}

impl fmt::Debug for Session {
    fn fmt(&self, f: &mut fmt::Formatter) -> fmt::Result {
        f.debug_struct("Session").field("end", &self.end()).field("terms", &self.terms()).field("due", &self.due()).finish_non_exhaustive()
    }
}

impl fmt::Debug for Step {
    fn fmt(&self, f: &mut fmt::Formatter) -> fmt::Result {
        f.debug_struct("Step")
            .field("line_bytes", &self.line.len())
            .field("result_words", &self.result.len())
            .field("words_read", &self.words_read)
            .finish()
    }
}
