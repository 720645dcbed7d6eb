//! The archive's entries on slices (RULES 11.2 and 12.3), for those who keep records, pools and buffers as bytes of their own. They take
//! any numbers and any bytes; that no two slices of a call overlap, which is all that they ask, the borrows see to. All `unsafe` of the
//! crate stands here.

use crate::names::{SessionNumber, TapeNumber};
use crate::sys::{self, Report, Residue, Score, Share};

/// The tape that a call works on.
pub struct At<'a> {
    /// The pool, as words of 32 bits with the lowest byte first.
    pub pool: &'a mut [u8],
    /// The slot size, in words.
    pub size: usize,
    /// The slot.
    pub index: usize,
}

/// What a first step is told of its session.
pub struct Numbers {
    /// The session's number; a dealing does not look at it.
    pub session: SessionNumber,
    /// The tape's number.
    pub tape: TapeNumber,
    /// The modulus.
    pub q: u32,
    /// m, k and p.
    pub sides: [u32; 3],
}

/// What a first step only reads.
pub struct Handed<'a> {
    /// X, Y, a system's matrix and its vector behind it, or a determinant's matrix, as words.
    pub input: &'a [u8],
    /// Raw words.
    pub words: &'a [u8],
    /// The line that has arrived.
    pub message: &'a [u8],
}

/// What a step keeps and writes beside its tape.
pub struct Lent<'a> {
    /// The session's record, of 1,120 bytes.
    pub record: &'a mut [u8],
    /// The blinder's scratch.
    pub scratch: &'a mut [u8],
    /// Where the line that is sent is written.
    pub line: &'a mut [u8],
    /// Where a share, z or a determinant is written.
    pub result: &'a mut [u8],
}

/// Calls with each slice taken apart into pointer and length.
macro_rules! call {
    (@ $name:ident [$($done:tt)*]) => { unsafe { sys::$name($($done)*) } };
    (@ $name:ident [$($done:tt)*] & $slice:expr, $($rest:tt)*) => {
        call!(@ $name [$($done)* $slice.as_ptr(), $slice.len(),] $($rest)*)
    };
    (@ $name:ident [$($done:tt)*] mut $slice:expr, $($rest:tt)*) => {
        call!(@ $name [$($done)* $slice.as_mut_ptr(), $slice.len(),] $($rest)*)
    };
    (@ $name:ident [$($done:tt)*] = $number:expr, $($rest:tt)*) => {
        call!(@ $name [$($done)* $number,] $($rest)*)
    };
    ($name:ident: $($rest:tt)*) => { call!(@ $name [] $($rest)*) };
}

/// Deals a tape into one slot of two pools, which are cut alike.
pub fn deal(sort: u32, at: At, second: &mut [u8], n: Numbers, words: &[u8]) -> Report {
    let [m, k, p] = n.sides;
    call!(yuthsaok_deal: = sort, mut at.pool, mut second, = at.size, = at.index, = n.tape.0, = n.q, = m, = k, = p, &words,)
}

/// The first step of an end, by its number.
pub fn first(end: u32, at: At, n: Numbers, handed: Handed, lent: Lent) -> Report {
    let [m, k, p] = n.sides;
    call!(yuthsaok_first: mut lent.record, = end, mut at.pool, = at.size, = at.index, = n.session.0, = n.tape.0, = n.q, = m, = k, = p,
        &handed.input, &handed.words, mut lent.scratch, &handed.message, mut lent.line, mut lent.result,)
}

/// The step that is due.
pub fn next(at: At, message: &[u8], lent: Lent) -> Report {
    call!(yuthsaok_next: mut lent.record, mut at.pool, = at.size, = at.index, mut lent.scratch, &message, mut lent.line, mut lent.result,)
}

/// Gives an open session up.
pub fn drop(at: At, record: &mut [u8], scratch: &mut [u8]) -> Report {
    call!(yuthsaok_drop: mut record, mut at.pool, = at.size, = at.index, mut scratch,)
}

/// The archive's version as one number.
pub fn version() -> u32 {
    call!(yuthsaok_version:)
}

/// The words of a record.
pub fn record_words() -> usize {
    call!(yuthsaok_record_words:)
}

/// The words of an end's half.
pub fn tape_words(end: u32, [m, k, p]: [u32; 3]) -> usize {
    call!(yuthsaok_tape_words: = end, = m, = k, = p,)
}

/// The words of an end's scratch.
pub fn scratch_words(end: u32, [m, k, p]: [u32; 3]) -> usize {
    call!(yuthsaok_scratch_words: = end, = m, = k, = p,)
}

/// The bytes of the longest line of a kind.
pub fn line_bytes(kind: u32, q: u32, [m, k, p]: [u32; 3]) -> usize {
    call!(yuthsaok_line_bytes: = kind, = q, = m, = k, = p,)
}

/// The residues that an end's first step draws.
pub fn coin_count(end: u32, [m, k, p]: [u32; 3]) -> usize {
    call!(yuthsaok_coin_count: = end, = m, = k, = p,)
}

/// The residues that a dealing draws.
pub fn deal_count(sort: u32, [m, k, p]: [u32; 3]) -> usize {
    call!(yuthsaok_deal_count: = sort, = m, = k, = p,)
}

/// 1 where n is prime.
pub fn is_prime(n: u32) -> u32 {
    call!(yuthsaok_is_prime: = n,)
}

/// 0 where an n by n matrix of residues has an inverse; else the number of a refusal.
pub fn has_inverse(q: u32, n: u32, matrix: &[u8]) -> u32 {
    call!(yuthsaok_has_inverse: = q, = n, &matrix,)
}

/// A score as a residue.
pub fn to_residue(q: u32, score: i32) -> Residue {
    call!(yuthsaok_to_residue: = q, = score,)
}

/// A residue as a score.
pub fn to_score(q: u32, residue: u32) -> Score {
    call!(yuthsaok_to_score: = q, = residue,)
}

/// The word of a refusal's number at the slice's start, and its length.
pub fn refusal_word(number: u32, word: &mut [u8]) -> usize {
    call!(yuthsaok_refusal_word: = number, mut word,)
}

/// The share of the window of w days from day `first` on.
pub fn window_share(q: u32, shares: &[u8], first: usize, w: usize) -> Share {
    call!(yuthsaok_window_share: = q, &shares, = first, = w,)
}

/// The share of the window after that of w days from day `first` on, whose share is handed over.
pub fn next_window(q: u32, shares: &[u8], first: usize, w: usize, share: u32) -> Share {
    call!(yuthsaok_next_window: = q, &shares, = first, = w, = share,)
}

/// 0 where a run of flags fits; else the number of a refusal.
pub fn flags_fit(flags: &[u8]) -> u32 {
    call!(yuthsaok_flags_fit: &flags,)
}

// The archive is built for x86-64 alone, whose words have their lowest byte first, as the archive's have.
const _: () = assert!(cfg!(target_endian = "little"), "words in memory are not as the archive takes them");

/// Words as the archive takes them, without a copy: a move of a window looks at two days, and would else copy the whole run.
pub(crate) fn bytes_of(words: &[u32]) -> &[u8] {
    // these are the words' own bytes, all of them set and lent for as long as the words are; bytes stand at any address
    unsafe { std::slice::from_raw_parts(words.as_ptr().cast(), size_of_val(words)) }
}

extern "C" {
    /// Of the C library, which every Rust program on Linux links. Without flags it waits until the system's source has been seeded.
    fn getrandom(bytes: *mut u8, count: usize, flags: u32) -> isize;
}

/// Fills a part of the bytes, at their start, and gives its length; below 0 at an error.
pub(crate) fn fill_random(bytes: &mut [u8]) -> isize {
    unsafe { getrandom(bytes.as_mut_ptr(), bytes.len(), 0) }
}
