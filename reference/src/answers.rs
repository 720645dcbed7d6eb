//! The entries on bytes by the rules: each call works on copies, and what it leaves is written back where it is done.

use crate::dealer::{deal_product, deal_system};
use crate::determinant::{blinder_determinant, solver_determinant};
use crate::entries::{Deal, Dropping, Entries, First, Next, Reply, Residue, Score, Share, Slot, RECORD};
use crate::faults::{self, Faults, SINGULAR, SIZE, TURN};
use crate::line;
use crate::matrix::Matrix;
use crate::pool::{End, Place};
use crate::product::{left_step, right_drop, right_first, right_last, Right};
use crate::record::{is_open, put_words, words_of, Session};
use crate::system::{blinder_drop, blinder_first, blinder_last, blinder_second, solver_drop, solver_first, solver_last, solver_second};
use crate::{scores, sizes, window, Message};

/// The entries of this implementation.
#[derive(Clone, PartialEq, Eq)]
pub struct Reference;

/// A line has its own room, which is judged when there is a line; the step's own slice is never too short.
const ROOM: usize = usize::MAX;

/// A step's answer, and the session that it leaves.
type Done = (crate::Reply, Session);

fn refused(number: u32) -> Reply {
    Reply { number, ..Default::default() }
}

impl Faults {
    fn record(&mut self, record: &[u8]) {
        self.unless(record.len() == RECORD, SIZE);
    }

    fn whole(&mut self, slices: &[&[u8]]) {
        self.unless(slices.iter().all(|bytes| bytes.len() % 4 == 0), SIZE);
    }
}

/// Copies of the words that a step works on.
struct Work {
    pool: Vec<u32>,
    size: usize,
    index: usize,
    scratch: Vec<u32>,
}

impl Work {
    fn of(slot: &Slot, scratch: &[u8]) -> Work {
        Work { pool: words_of(slot.pool), size: slot.size, index: slot.index, scratch: words_of(scratch) }
    }

    /// The slot and the scratch.
    fn parts(&mut self) -> (Place<'_>, &mut [u32]) {
        (Place { pool: &mut self.pool, length: self.size, index: self.index }, &mut self.scratch)
    }
}

/// What may be written of what a call was lent.
struct Lent<'a> {
    record: &'a mut [u8],
    pool: &'a mut [u8],
    scratch: &'a mut [u8],
    line: &'a mut [u8],
    result: &'a mut [u8],
}

/// The lowest of the entry's own faults and the step's; where there is none, all that the step leaves is written. So it is after a singular
/// sum, which a later step alone tells by this number; the blinder's last step of a determinant, which tells P or Q by it, leaves all as it
/// was.
fn settle(mut own: Faults, (reply, session): Done, work: Work, lent: Lent, is_first: bool) -> Reply {
    let line = if reply.message.kind == 0 { String::new() } else { line::write(&reply.message) };
    own.unless(reply.number == 0, reply.number);
    if own.lowest() == 0 {
        own.room(line.len(), lent.line.len());
    }
    if own.lowest() == 0 || (own.lowest() == SINGULAR && !is_first) {
        lent.record.copy_from_slice(&session.record());
        put_words(&work.pool, lent.pool);
        put_words(&work.scratch, lent.scratch);
        put_words(&reply.result, lent.result);
        lent.line[..line.len()].copy_from_slice(line.as_bytes());
    }
    match own.lowest() {
        0 => Reply { number: 0, read: reply.read, bytes: line.len() },
        number => refused(number),
    }
}

/// A matrix of m rows and columns, and the vector behind it, or nothing.
fn cut(m: u32, input: &[u32]) -> (&[u32], &[u32]) {
    let square = u64::from(m) * u64::from(m);
    input.split_at(square.min(input.len() as u64) as usize)
}

fn first_step(end: End, c: &First, work: &mut Work, a: &Message) -> Done {
    let (t, input, words) = (c.terms, words_of(c.input), words_of(c.words));
    let (mut place, scratch) = work.parts();
    let (matrix, vector) = cut(t.m, &input);
    match end {
        End::Left => (left_step(t, &mut place, &input, &words, a, ROOM, c.result.len() / 4), Session::Left(t)),
        End::Right => {
            let (reply, s) = right_first(t, &mut place, &input, ROOM);
            (reply, Session::Right(s))
        }
        End::Blinder => {
            let (reply, s) = blinder_first(t, &mut place, scratch, matrix, vector, &words, a, ROOM);
            (reply, Session::Blinder(s))
        }
        End::Solver => {
            let (reply, s) = solver_first(t, &mut place, matrix, vector, ROOM);
            (reply, Session::Solver(s))
        }
    }
}

fn later_step(session: Session, work: &mut Work, a: &Message, room: usize) -> Done {
    let (mut place, scratch) = work.parts();
    let place = &mut place;
    match session {
        Session::Right(s) => {
            let (reply, s) = right_last(s, place, a, room);
            (reply, Session::Right(s))
        }
        Session::Solver(s) => {
            let (reply, s) = match s.due {
                2 => solver_second(s, place, a, ROOM),
                _ if s.terms.is_determinant() => solver_determinant(s, place, a, ROOM),
                _ => solver_last(s, place, a, ROOM),
            };
            (reply, Session::Solver(s))
        }
        Session::Blinder(s) => {
            let (reply, s) = match s.due {
                3 => blinder_second(s, place, scratch, a, ROOM),
                _ if s.terms.is_determinant() => blinder_determinant(s, place, scratch, a, room),
                _ => blinder_last(s, place, scratch, a, room),
            };
            (reply, Session::Blinder(s))
        }
        // any closed session gives the same
        Session::None | Session::Left(_) => (right_last(Right::default(), place, a, room).0, Session::None),
    }
}

fn drop_of(session: Session, work: &mut Work) -> Done {
    let (mut place, scratch) = work.parts();
    let place = &mut place;
    match session {
        Session::Right(s) => {
            let (reply, s) = right_drop(s, place);
            (reply, Session::Right(s))
        }
        Session::Solver(s) => {
            let (reply, s) = solver_drop(s, place);
            (reply, Session::Solver(s))
        }
        Session::Blinder(s) => {
            let (reply, s) = blinder_drop(s, place, scratch);
            (reply, Session::Blinder(s))
        }
        Session::None | Session::Left(_) => (right_drop(Right::default(), place).0, Session::None),
    }
}

/// The number of a call on a run of days, which is refused where it is not whole words, too.
fn on_run(run: &[u8], number: u32) -> u32 {
    let mut own = Faults::new();
    own.whole(&[run]);
    own.unless(number == 0, number);
    own.lowest()
}

fn share_of(run: &[u8], found: Result<u32, u32>) -> Share {
    match on_run(run, found.err().unwrap_or(0)) {
        0 => Share { number: 0, share: found.unwrap_or(0) },
        number => Share { number, share: 0 },
    }
}

impl Entries for Reference {
    fn deal(c: Deal) -> Reply {
        let t = c.terms;
        let mut own = Faults::new();
        own.whole(&[c.slot.pool, c.second, c.words]);
        own.unless(c.sort < 2, SIZE);
        if c.sort > 1 {
            return refused(own.lowest());
        }
        let (mut one, mut two, words) = (words_of(c.slot.pool), words_of(c.second), words_of(c.words));
        let (length, index) = (c.slot.size, c.slot.index);
        let mut first = Place { pool: &mut one, length, index };
        let mut second = Place { pool: &mut two, length, index };
        let reply = if c.sort == 0 {
            deal_product(&mut first, &mut second, t.tape, t.q, t.m, t.k, t.p, &words)
        } else {
            deal_system(&mut first, &mut second, t.tape, t.q, t.m, t.k, t.p, &words)
        };
        own.unless(reply.number == 0, reply.number);
        if own.lowest() != 0 {
            return refused(own.lowest());
        }
        put_words(&one, c.slot.pool);
        put_words(&two, c.second);
        Reply { read: reply.read, ..Default::default() }
    }

    fn first(c: First) -> Reply {
        let mut own = Faults::new();
        own.record(c.record);
        own.whole(&[c.slot.pool, c.input, c.words, c.scratch, c.result]);
        own.unless(!is_open(c.record), TURN);
        let Some(end) = End::numbered(c.end) else {
            own.unless(false, SIZE);
            return refused(own.lowest());
        };
        let message = match end {
            End::Left | End::Blinder => line::parse(c.message),
            End::Right | End::Solver => Ok(Message::default()),
        };
        // no number is lower than that of a line without form
        let message = match message {
            Ok(message) => message,
            Err(number) => return refused(number),
        };
        let mut work = Work::of(&c.slot, c.scratch);
        let done = first_step(end, &c, &mut work, &message);
        let lent = Lent { record: c.record, pool: c.slot.pool, scratch: c.scratch, line: c.line, result: c.result };
        settle(own, done, work, lent, true)
    }

    fn next(c: Next) -> Reply {
        let mut own = Faults::new();
        own.record(c.record);
        own.whole(&[c.slot.pool, c.scratch, c.result]);
        let message = match line::parse(c.message) {
            Ok(message) => message,
            Err(number) => return refused(number),
        };
        let mut work = Work::of(&c.slot, c.scratch);
        let done = later_step(Session::of(c.record), &mut work, &message, c.result.len() / 4);
        let lent = Lent { record: c.record, pool: c.slot.pool, scratch: c.scratch, line: c.line, result: c.result };
        settle(own, done, work, lent, false)
    }

    fn drop(c: Dropping) -> Reply {
        let mut own = Faults::new();
        own.record(c.record);
        own.whole(&[c.slot.pool, c.scratch]);
        let mut work = Work::of(&c.slot, c.scratch);
        let done = drop_of(Session::of(c.record), &mut work);
        let lent = Lent { record: c.record, pool: c.slot.pool, scratch: c.scratch, line: &mut [], result: &mut [] };
        settle(own, done, work, lent, false)
    }

    fn version() -> u32 {
        300
    }

    fn record_words() -> usize {
        RECORD / 4
    }

    fn tape_words(end: u32, m: u32, k: u32, p: u32) -> usize {
        sizes::tape_words(end, m, k, p)
    }

    fn scratch_words(end: u32, m: u32, k: u32, p: u32) -> usize {
        sizes::scratch_words(end, m, k, p)
    }

    fn line_bytes(kind: u32, q: u32, m: u32, k: u32, p: u32) -> usize {
        sizes::line_bytes(kind, q, m, k, p)
    }

    fn coin_count(end: u32, m: u32, k: u32, p: u32) -> usize {
        sizes::coin_count(end, m, k, p)
    }

    fn deal_count(sort: u32, m: u32, k: u32, p: u32) -> usize {
        sizes::deal_count(sort, m, k, p)
    }

    fn is_prime(n: u32) -> u32 {
        u32::from(faults::is_prime(n))
    }

    fn has_inverse(q: u32, n: u32, matrix: &[u8]) -> u32 {
        let mut faults = Faults::new();
        faults.modulus(q);
        faults.prime(q);
        faults.unless((1..=16).contains(&n) && matrix.len() as u64 == 4 * u64::from(n) * u64::from(n), SIZE);
        if faults.lowest() == 0 {
            let words = words_of(matrix);
            faults.residues(q, &words);
            if faults.lowest() == 0 {
                faults.unless(Matrix::new(q, n as usize, n as usize, &words).is_regular(), SINGULAR);
            }
        }
        faults.lowest()
    }

    fn to_residue(q: u32, score: i32) -> Residue {
        match scores::to_residue(q, score) {
            Ok(residue) => Residue { number: 0, residue },
            Err(number) => Residue { number, residue: 0 },
        }
    }

    fn to_score(q: u32, residue: u32) -> Score {
        match scores::to_score(q, residue) {
            Ok(score) => Score { number: 0, score },
            Err(number) => Score { number, score: 0 },
        }
    }

    fn refusal_word(number: u32, out: &mut [u8]) -> usize {
        let word = faults::word(number);
        if out.len() < word.len() {
            return 0;
        }
        out[..word.len()].copy_from_slice(word.as_bytes());
        word.len()
    }

    fn window_share(q: u32, shares: &[u8], first: usize, w: usize) -> Share {
        share_of(shares, window::window_share(q, &words_of(shares), first, w))
    }

    fn next_window(q: u32, shares: &[u8], first: usize, w: usize, share: u32) -> Share {
        share_of(shares, window::next_window(q, &words_of(shares), first, w, share))
    }

    fn flags_fit(flags: &[u8]) -> u32 {
        on_run(flags, window::flags_fit(&words_of(flags)))
    }
}
