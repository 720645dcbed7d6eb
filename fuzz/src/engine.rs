//! The engine's entries on bytes, as the archive has them.

use reference::entries::{Deal, Dropping, Entries, First, Next, Reply, Residue, Score, Share, Slot};
use reference::Terms;
use yuthsaok::slices::{self, At, Handed, Lent, Numbers};
use yuthsaok::{sys, SessionNumber, TapeNumber};

#[derive(Clone, PartialEq, Eq)]
pub struct Engine;

fn at(slot: Slot) -> At {
    At { pool: slot.pool, size: slot.size, index: slot.index }
}

fn numbers(t: Terms) -> Numbers {
    Numbers { session: SessionNumber(t.session), tape: TapeNumber(t.tape), q: t.q, sides: [t.m, t.k, t.p] }
}

fn reply(sys::Report { number, read, bytes }: sys::Report) -> Reply {
    Reply { number, read, bytes }
}

fn share(sys::Share { number, share }: sys::Share) -> Share {
    Share { number, share }
}

impl Entries for Engine {
    fn deal(c: Deal) -> Reply {
        reply(slices::deal(c.sort, at(c.slot), c.second, numbers(c.terms), c.words))
    }

    fn first(c: First) -> Reply {
        let handed = Handed { input: c.input, words: c.words, message: c.message };
        let lent = Lent { record: c.record, scratch: c.scratch, line: c.line, result: c.result };
        reply(slices::first(c.end, at(c.slot), numbers(c.terms), handed, lent))
    }

    fn next(c: Next) -> Reply {
        let lent = Lent { record: c.record, scratch: c.scratch, line: c.line, result: c.result };
        reply(slices::next(at(c.slot), c.message, lent))
    }

    fn drop(c: Dropping) -> Reply {
        reply(slices::drop(at(c.slot), c.record, c.scratch))
    }

    fn version() -> u32 {
        slices::version()
    }

    fn record_words() -> usize {
        slices::record_words()
    }

    fn tape_words(end: u32, m: u32, k: u32, p: u32) -> usize {
        slices::tape_words(end, [m, k, p])
    }

    fn scratch_words(end: u32, m: u32, k: u32, p: u32) -> usize {
        slices::scratch_words(end, [m, k, p])
    }

    fn line_bytes(kind: u32, q: u32, m: u32, k: u32, p: u32) -> usize {
        slices::line_bytes(kind, q, [m, k, p])
    }

    fn coin_count(end: u32, m: u32, k: u32, p: u32) -> usize {
        slices::coin_count(end, [m, k, p])
    }

    fn deal_count(sort: u32, m: u32, k: u32, p: u32) -> usize {
        slices::deal_count(sort, [m, k, p])
    }

    fn is_prime(n: u32) -> u32 {
        slices::is_prime(n)
    }

    fn has_inverse(q: u32, n: u32, matrix: &[u8]) -> u32 {
        slices::has_inverse(q, n, matrix)
    }

    fn to_residue(q: u32, score: i32) -> Residue {
        let sys::Residue { number, residue } = slices::to_residue(q, score);
        Residue { number, residue }
    }

    fn to_score(q: u32, residue: u32) -> Score {
        let sys::Score { number, score } = slices::to_score(q, residue);
        Score { number, score }
    }

    fn refusal_word(number: u32, word: &mut [u8]) -> usize {
        slices::refusal_word(number, word)
    }

    fn window_share(q: u32, shares: &[u8], first: usize, w: usize) -> Share {
        share(slices::window_share(q, shares, first, w))
    }

    fn next_window(q: u32, shares: &[u8], first: usize, w: usize, before: u32) -> Share {
        share(slices::next_window(q, shares, first, w, before))
    }

    fn flags_fit(flags: &[u8]) -> u32 {
        slices::flags_fit(flags)
    }
}
