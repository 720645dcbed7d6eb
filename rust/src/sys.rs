//! The archive's entries as they are linked (RULES 11 and 12.3), for those who want no layer over them. A slice is its pointer and then its
//! length in bytes; the slices of one call must not overlap. An empty slice's pointer is not read.

/// What a dealing, a step or a drop answers.
#[repr(C)]
#[derive(Clone, Copy, Debug, Default, PartialEq, Eq)]
pub struct Report {
    /// 0, or the number of the refusal.
    pub number: u32,
    /// How many raw words were read.
    pub read: usize,
    /// How many bytes of the line were written.
    pub bytes: usize,
}

/// What [`yuthsaok_to_residue`] answers.
#[repr(C)]
#[derive(Clone, Copy, Debug, Default, PartialEq, Eq)]
pub struct Residue {
    /// 0, or the number of the refusal.
    pub number: u32,
    /// The residue of the score.
    pub residue: u32,
}

/// What [`yuthsaok_to_score`] answers.
#[repr(C)]
#[derive(Clone, Copy, Debug, Default, PartialEq, Eq)]
pub struct Score {
    /// 0, or the number of the refusal.
    pub number: u32,
    /// The score of the residue.
    pub score: i32,
}

/// What [`yuthsaok_window_share`] and [`yuthsaok_next_window`] answer.
#[repr(C)]
#[derive(Clone, Copy, Debug, Default, PartialEq, Eq)]
pub struct Share {
    /// 0, or the number of the refusal.
    pub number: u32,
    /// The share of the window.
    pub share: u32,
}

extern "C" {
    /// Deals a tape (sort 0 product, 1 system, or determinant where p is m) into one slot of two pools.
    pub fn yuthsaok_deal(
        sort: u32,
        first: *mut u8,
        first_bytes: usize,
        second: *mut u8,
        second_bytes: usize,
        size: usize,
        index: usize,
        tape: u32,
        q: u32,
        m: u32,
        k: u32,
        p: u32,
        words: *const u8,
        words_bytes: usize,
    ) -> Report;

    /// The first step of an end (1 left, 2 right, 3 blinder, 4 solver).
    pub fn yuthsaok_first(
        session: *mut u8,
        session_bytes: usize,
        end: u32,
        pool: *mut u8,
        pool_bytes: usize,
        size: usize,
        index: usize,
        number: u32,
        tape: u32,
        q: u32,
        m: u32,
        k: u32,
        p: u32,
        input: *const u8,
        input_bytes: usize,
        words: *const u8,
        words_bytes: usize,
        scratch: *mut u8,
        scratch_bytes: usize,
        message: *const u8,
        message_bytes: usize,
        line: *mut u8,
        line_bytes: usize,
        result: *mut u8,
        result_bytes: usize,
    ) -> Report;

    /// The step that is due.
    pub fn yuthsaok_next(
        session: *mut u8,
        session_bytes: usize,
        pool: *mut u8,
        pool_bytes: usize,
        size: usize,
        index: usize,
        scratch: *mut u8,
        scratch_bytes: usize,
        message: *const u8,
        message_bytes: usize,
        line: *mut u8,
        line_bytes: usize,
        result: *mut u8,
        result_bytes: usize,
    ) -> Report;

    /// Gives an open session up.
    pub fn yuthsaok_drop(
        session: *mut u8,
        session_bytes: usize,
        pool: *mut u8,
        pool_bytes: usize,
        size: usize,
        index: usize,
        scratch: *mut u8,
        scratch_bytes: usize,
    ) -> Report;

    /// 10,000 × major + 100 × minor + patch.
    pub fn yuthsaok_version() -> u32;
    /// The words of a session: 280.
    pub fn yuthsaok_record_words() -> usize;
    /// The words of an end's half.
    pub fn yuthsaok_tape_words(end: u32, m: u32, k: u32, p: u32) -> usize;
    /// The words of an end's scratch.
    pub fn yuthsaok_scratch_words(end: u32, m: u32, k: u32, p: u32) -> usize;
    /// The bytes of the longest line of a kind.
    pub fn yuthsaok_line_bytes(kind: u32, q: u32, m: u32, k: u32, p: u32) -> usize;
    /// The residues that an end's first step draws.
    pub fn yuthsaok_coin_count(end: u32, m: u32, k: u32, p: u32) -> usize;
    /// The residues that a dealing draws.
    pub fn yuthsaok_deal_count(sort: u32, m: u32, k: u32, p: u32) -> usize;
    /// 1 where n is prime, else 0.
    pub fn yuthsaok_is_prime(n: u32) -> u32;
    /// 0 where the n by n matrix has an inverse modulo q, else the refusal's number.
    pub fn yuthsaok_has_inverse(q: u32, n: u32, matrix: *const u8, matrix_bytes: usize) -> u32;
    /// The residue of a score.
    pub fn yuthsaok_to_residue(q: u32, score: i32) -> Residue;
    /// The score of a residue.
    pub fn yuthsaok_to_score(q: u32, residue: u32) -> Score;
    /// Writes the word of a refusal, and gives its length.
    pub fn yuthsaok_refusal_word(number: u32, word: *mut u8, word_bytes: usize) -> usize;
    /// The share of the window of w days from day `first` on.
    pub fn yuthsaok_window_share(q: u32, shares: *const u8, shares_bytes: usize, first: usize, w: usize) -> Share;
    /// The share of the window after that one, which is handed over.
    pub fn yuthsaok_next_window(q: u32, shares: *const u8, shares_bytes: usize, first: usize, w: usize, share: u32) -> Share;
    /// 0 where a run of flags fits, else the refusal's number.
    pub fn yuthsaok_flags_fit(flags: *const u8, flags_bytes: usize) -> u32;
}
