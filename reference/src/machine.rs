//! A machine that performs calls as a script tells it, and prints what they answer and leave: by the reference here, by the engine in
//! `fuzz`. `naming` has its calls and their answers by name.
//!
//! The machine has arrays of words, which all begin with zeros, boxes of mail, which begin empty, and 32 registers. A line of the script is
//! a line of at most 64 numbers:
//!
//! ```text
//! 0,R,V..        the registers from number R on get the values V
//! 1,A,I,N,S,M    N words of the array A, from index I on, are filled from the seed S: residues modulo M, or raw words where M is 0
//! 2,A,I,V..      the words of the array A from index I on get the values V
//! 3,A,I,N        N words of the array A, from index I on, are printed
//! 4,B,I,V..      box B keeps its first I bytes, and the bytes V are put behind them
//! 5,B,I,N,V,W    box B keeps its first I bytes, and N bytes are put behind them, V and W in turn
//! 6,B,C,I,V      box C gets what is in box B with its number I replaced by V; past the last number V is put behind them
//! 7,B,C,I,N,V..  box C gets what is in box B with the N bytes from I on replaced by the bytes V
//! 8,B            box B is printed
//! 9,A,I,N,C,J    N words of the array A, from index I on, are put into the array C, from index J on
//! C,R,V..        as 0; then the call C is made
//! ```
//!
//! Seeds: from a state s, at first the seed, the next is 279470273 s modulo 4294967291. The state modulo M is a residue. The state is a raw
//! word, too, but where 8 divides it the word is 4294967295 less an eighth of the state modulo 8.
//!
//! Calls are made on bytes. An array's words stand in it lowest byte first, behind as many bytes as its number modulo 4: the first pool is
//! aligned, and the second is not. Lengths are in bytes, so that a slice need not be whole words. Registers:
//!
//! ```text
//! 0        the pool of a step, 0 or 1; a dealing with 1 gives the left or the blinder's half to the second pool
//! 1, 2     bytes of the first and of the second pool
//! 3, 4     size and index of the slot; 2^31 or more stands for the number as far below 2^64 as it is below 2^32
//! 5 – 10   session, tape, q, m, k, p
//! 11       the end, the sort, or the kind of a message
//! 12, 13   bytes of the record, and its place, 0 to 7
//! 14, 15   index of the scratch's first word, and its bytes
//! 16, 17   the box of the message that is taken, and how many bytes of it at most
//! 18, 19   the box that the line that is written is put into, and the bytes for it
//! 20       bytes of the result
//! 21       the modulus of inputs
//! 22, 23   seed and words of a matrix: X, Y, L or M
//! 24, 25   seed of the words behind it, x or y; bytes of both together, or of a run of days, which is filled in the same way
//! 26, 27   seed and bytes of raw words
//! 28       a score, a residue, a number, or a window's share
//! 29, 30   first day and days of a window, as 3 and 4
//! 31       1: a call's line shows each sum; 0: two sums of sums
//! ```
//!
//! A seed of 0 leaves the words as they are. Calls: 10 deal, 11 first, 12 next, 13 drop, 14 version, 15 record_words, 16 tape_words,
//! 17 scratch_words, 18 line_bytes, 19 coin_count, 20 deal_count, 21 is_prime, 22 has_inverse, 23 to_residue, 24 to_score, 25 refusal_word,
//! 26 window_share, 27 next_window, 28 flags_fit. Any other answers 98. A call prints its number, the answer's number, words read, bytes
//! written, and sums of what may be written. What a small entry gives stands where the words read stand, and so does a window's share.

use std::fmt::Write;
use std::marker::PhantomData;
use std::ops::Range;

use crate::entries::{Deal, Dropping, Entries, First, Next, Reply, Share, Slot};
use crate::line::numbers;
use crate::record::{put_words, words_of};
use crate::Terms;

pub const REGISTERS: usize = 32;
pub type Registers = [u32; REGISTERS];

pub const DEAL: u32 = 10;
pub const FIRST: u32 = 11;
pub const NEXT: u32 = 12;
pub const DROP: u32 = 13;
pub const VERSION: u32 = 14;
pub const RECORD_WORDS: u32 = 15;
pub const TAPE_WORDS: u32 = 16;
pub const SCRATCH_WORDS: u32 = 17;
pub const LINE_BYTES: u32 = 18;
pub const COIN_COUNT: u32 = 19;
pub const DEAL_COUNT: u32 = 20;
pub const IS_PRIME: u32 = 21;
pub const HAS_INVERSE: u32 = 22;
pub const TO_RESIDUE: u32 = 23;
pub const TO_SCORE: u32 = 24;
pub const REFUSAL_WORD: u32 = 25;
pub const WINDOW_SHARE: u32 = 26;
pub const NEXT_WINDOW: u32 = 27;
pub const FLAGS_FIT: u32 = 28;

/// Arrays by their numbers.
pub const ONE: usize = 0;
pub const TWO: usize = 1;
pub const SCRATCHES: usize = 2;
pub const RECORDS: usize = 3;
pub const LINE: usize = 4;
pub const RESULT: usize = 5;
pub const INPUT: usize = 6;
pub const RAW: usize = 7;

/// Their names.
pub const ARRAYS: [&str; 8] = ["first pool", "second pool", "scratches", "records", "line", "result", "input", "raw words"];

/// Their words.
pub const POOL: usize = 9300;
pub const SCRATCH: usize = 600;
pub const PLACE: usize = 284;
pub const LINE_ROOM: usize = 34_000;
pub const RESULTS: usize = 1100;
const WORDS: [usize; 8] = [POOL, POOL, 3 * SCRATCH, 8 * PLACE, LINE_ROOM / 4, RESULTS, 2200, 9000];

/// Boxes: one for each slot and one for what is not sent by a session.
pub const BOXES: usize = 5;
pub const SPARE: u32 = 4;

#[derive(Clone, PartialEq, Eq)]
pub struct Machine<E: Entries> {
    pub registers: Registers,
    pub arrays: [Vec<u8>; 8],
    pub mail: [Vec<u8>; BOXES],
    /// Of the last call.
    pub reply: Reply,
    /// Nothing is printed, and no sums are made.
    pub quiet: bool,
    entries: PhantomData<E>,
}

impl<E: Entries> Default for Machine<E> {
    fn default() -> Self {
        Machine {
            registers: [0; REGISTERS],
            arrays: std::array::from_fn(|a| vec![0; length(a)]),
            mail: Default::default(),
            reply: Reply::default(),
            quiet: false,
            entries: PhantomData,
        }
    }
}

/// The bytes before an array's first word.
fn shift(array: usize) -> usize {
    array % 4
}

/// The bytes of an array: some more than whole words may be lent.
fn length(array: usize) -> usize {
    shift(array) + 4 * WORDS[array] + 8
}

/// From a state the next.
fn next(state: u32) -> u32 {
    (u64::from(state) * 279_470_273 % 4_294_967_291) as u32
}

fn value(state: u32, modulus: u32) -> u32 {
    match modulus {
        0 if state % 8 == 0 => u32::MAX - state / 8 % 8,
        0 => state,
        _ => state % modulus,
    }
}

/// The words of a seed.
pub fn seeded(seed: u32, modulus: u32, count: usize) -> Vec<u32> {
    let mut state = seed;
    let step = |_| {
        state = next(state);
        value(state, modulus)
    };
    (0..count).map(step).collect()
}

fn most(n: u32, limit: usize) -> usize {
    limit.min(n as usize)
}

fn mixed(sum: u32, word: u32) -> u32 {
    sum.wrapping_mul(1_664_525).wrapping_add(word).wrapping_add(1)
}

fn sum(words: &[u32]) -> u32 {
    words.iter().fold(7, |s, w| mixed(s, *w))
}

/// Of all bytes, four at a time.
fn sum_of(bytes: &[u8]) -> u32 {
    let four = |b: &[u8]| b.iter().rev().fold(0, |n, b| n << 8 | u32::from(*b));
    bytes.chunks(4).fold(7, |s, b| mixed(s, four(b)))
}

pub(crate) fn wide(n: u32) -> usize {
    if n < 1 << 31 {
        n as usize
    } else {
        usize::MAX - (u32::MAX - n) as usize
    }
}

/// A line with its number i replaced, or with one more.
fn with_number(line: &[u8], i: usize, value: u32) -> Vec<u8> {
    let text = line.strip_suffix(b"\n").unwrap_or(line);
    let mut parts: Vec<Vec<u8>> = text.split(|b| *b == b',').map(<[u8]>::to_vec).collect();
    let new = value.to_string().into_bytes();
    match parts.get_mut(i) {
        Some(part) => *part = new,
        None => parts.push(new),
    }
    let mut all = parts.join(&b',');
    all.extend(&line[text.len()..]);
    all
}

/// A line with n bytes from some place on replaced.
fn with_bytes(line: &[u8], at: u32, n: u32, bytes: Vec<u8>) -> Vec<u8> {
    let start = most(at, line.len());
    let end = start + most(n, line.len() - start);
    [&line[..start], &bytes, &line[end..]].concat()
}

fn as_bytes(numbers: &[u32]) -> Vec<u8> {
    numbers.iter().map(|n| *n as u8).collect()
}

/// Where so many bytes of an array stand, from some word on; fewer where it ends before.
pub(crate) fn range(array: usize, at: usize, bytes: u32) -> Range<usize> {
    let start = shift(array) + 4 * at.min(WORDS[array]);
    start..start + most(bytes, length(array) - start)
}

impl<E: Entries> Machine<E> {
    /// Performs a line, with its byte 10, and gives what is printed.
    pub fn line(&mut self, text: &[u8]) -> String {
        match numbers(text) {
            Some(all) if all.len() <= 64 => self.perform(&all),
            _ => "?\n".to_string(),
        }
    }

    pub fn script(&mut self, text: &[u8]) -> String {
        text.split_inclusive(|b| *b == b'\n').map(|line| self.line(line)).collect()
    }

    /// A line as numbers; those past its end count as 0.
    pub fn perform(&mut self, line: &[u32]) -> String {
        let mut n = [0; 64];
        n[..line.len()].copy_from_slice(line);
        let from = |i: usize| line.get(i..).unwrap_or(&[]);
        let array = most(n[1], WORDS.len() - 1);
        let (one, other) = (most(n[1], BOXES - 1), most(n[2], BOXES - 1));
        match n[0] {
            0 => self.set(n[1], from(2)),
            1 => self.fill(array, n[2], n[3], n[4], n[5]),
            2 => self.put(array, n[2], from(3)),
            3 => return format!("3{}\n", shown(&self.words(array, n[2], n[3]))),
            4 => self.keep(one, n[2], as_bytes(from(3))),
            5 => self.keep(one, n[2], (0..most(n[3], 1 << 17)).map(|i| n[4 + i % 2] as u8).collect()),
            6 => self.mail[other] = with_number(&self.mail[one], n[3] as usize, n[4]),
            7 => self.mail[other] = with_bytes(&self.mail[one], n[3], n[4], as_bytes(from(5))),
            8 => return format!("8,{}\n", String::from_utf8_lossy(&self.mail[one]).trim_end()),
            9 => self.put(most(n[4], WORDS.len() - 1), n[5], &self.words(array, n[2], n[3])),
            call => {
                self.set(n[1], from(2));
                self.reply = self.call(call);
                return if self.quiet { String::new() } else { self.shown(call) };
            }
        }
        String::new()
    }

    fn set(&mut self, at: u32, values: &[u32]) {
        let registers = &mut self.registers[most(at, REGISTERS)..];
        let n = values.len().min(registers.len());
        registers[..n].copy_from_slice(&values[..n]);
    }

    /// The bytes of an array's words from some word on.
    fn part(&mut self, array: usize, at: u32) -> &mut [u8] {
        &mut self.arrays[array][shift(array) + 4 * most(at, WORDS[array])..]
    }

    fn put(&mut self, array: usize, at: u32, words: &[u32]) {
        let room = WORDS[array] - most(at, WORDS[array]);
        put_words(&words[..words.len().min(room)], self.part(array, at));
    }

    fn fill(&mut self, array: usize, at: u32, count: u32, seed: u32, modulus: u32) {
        if seed != 0 {
            self.put(array, at, &seeded(seed, modulus, most(count, WORDS[array])));
        }
    }

    pub fn words(&self, array: usize, at: u32, count: u32) -> Vec<u32> {
        let start = most(at, WORDS[array]);
        let n = most(count, WORDS[array] - start);
        words_of(&self.arrays[array][shift(array) + 4 * start..][..4 * n])
    }

    fn keep(&mut self, of: usize, kept: u32, bytes: Vec<u8>) {
        let line = &mut self.mail[of];
        line.truncate(kept as usize);
        line.extend(bytes);
    }

    fn call(&mut self, call: u32) -> Reply {
        match call {
            DEAL => self.deal(),
            FIRST..=DROP => self.step(call),
            WINDOW_SHARE..=FLAGS_FIT => self.window(call),
            _ => self.small(call),
        }
    }

    pub(crate) fn terms(&self) -> Terms {
        let r = &self.registers;
        Terms { session: r[5], tape: r[6], q: r[7], m: r[8], k: r[9], p: r[10] }
    }

    fn fill_input(&mut self) {
        let r = self.registers;
        let words = r[25].div_ceil(4);
        let matrix = r[23].min(words);
        self.fill(INPUT, 0, matrix, r[22], r[21]);
        self.fill(INPUT, matrix, words - matrix, r[24], r[21]);
    }

    fn fill_raw(&mut self) {
        self.fill(RAW, 0, self.registers[27].div_ceil(4), self.registers[26], 0);
    }

    fn deal(&mut self) -> Reply {
        self.fill_raw();
        let (r, terms) = (self.registers, self.terms());
        let [one, two, _, _, _, _, _, raw] = &mut self.arrays;
        let (one, two) = (&mut one[range(ONE, 0, r[1])], &mut two[range(TWO, 0, r[2])]);
        let (pool, second) = if r[0] == 0 { (one, two) } else { (two, one) };
        let slot = Slot { pool, size: wide(r[3]), index: wide(r[4]) };
        E::deal(Deal { sort: r[11], slot, second, terms, words: &raw[range(RAW, 0, r[27])] })
    }

    fn step(&mut self, call: u32) -> Reply {
        if call == FIRST {
            self.fill_input();
            self.fill_raw();
        }
        let (r, terms) = (self.registers, self.terms());
        let [one, two, scratches, records, line, result, input, raw] = &mut self.arrays;
        let pool = if r[0] == 0 { &mut one[range(ONE, 0, r[1])] } else { &mut two[range(TWO, 0, r[2])] };
        let slot = Slot { pool, size: wide(r[3]), index: wide(r[4]) };
        let record = &mut records[range(RECORDS, PLACE * most(r[13], 7), r[12].min(4 * PLACE as u32))];
        let scratch = &mut scratches[range(SCRATCHES, r[14] as usize, r[15])];
        let (line, result) = (&mut line[range(LINE, 0, r[19])], &mut result[range(RESULT, 0, r[20])]);
        let mail = &self.mail[most(r[16], BOXES - 1)];
        let message = &mail[..most(r[17], mail.len())];
        let reply = match call {
            FIRST => {
                let (input, words) = (&input[range(INPUT, 0, r[25])], &raw[range(RAW, 0, r[27])]);
                E::first(First { record, end: r[11], slot, terms, input, words, scratch, message, line, result })
            }
            NEXT => E::next(Next { record, slot, scratch, message, line, result }),
            _ => E::drop(Dropping { record, slot, scratch }),
        };
        if reply.bytes != 0 {
            self.mail[most(r[18], BOXES - 1)] = self.arrays[LINE][range(LINE, 0, reply.bytes as u32)].to_vec();
        }
        reply
    }

    fn small(&mut self, call: u32) -> Reply {
        if call == HAS_INVERSE {
            self.fill_input();
        }
        let (r, t) = (self.registers, self.terms());
        let gives = |read: usize| Reply { read, ..Default::default() };
        match call {
            VERSION => gives(E::version() as usize),
            RECORD_WORDS => gives(E::record_words()),
            TAPE_WORDS => gives(E::tape_words(r[11], t.m, t.k, t.p)),
            SCRATCH_WORDS => gives(E::scratch_words(r[11], t.m, t.k, t.p)),
            LINE_BYTES => gives(E::line_bytes(r[11], t.q, t.m, t.k, t.p)),
            COIN_COUNT => gives(E::coin_count(r[11], t.m, t.k, t.p)),
            DEAL_COUNT => gives(E::deal_count(r[11], t.m, t.k, t.p)),
            IS_PRIME => gives(E::is_prime(t.q) as usize),
            HAS_INVERSE => {
                let matrix = &self.arrays[INPUT][range(INPUT, 0, r[25])];
                Reply { number: E::has_inverse(t.q, t.m, matrix), ..Default::default() }
            }
            TO_RESIDUE => {
                let given = E::to_residue(t.q, r[28] as i32);
                Reply { number: given.number, ..gives(given.residue as usize) }
            }
            TO_SCORE => {
                let given = E::to_score(t.q, r[28]);
                Reply { number: given.number, ..gives(given.score as u32 as usize) }
            }
            REFUSAL_WORD => {
                let word = &mut self.arrays[LINE][range(LINE, 0, r[19])];
                Reply { bytes: E::refusal_word(r[28], word), ..Default::default() }
            }
            _ => Reply { number: 98, ..Default::default() },
        }
    }

    /// A call on a run of days, which stands where an input does.
    fn window(&mut self, call: u32) -> Reply {
        self.fill_input();
        let r = &self.registers;
        let run = &self.arrays[INPUT][range(INPUT, 0, r[25])];
        let (first, w) = (wide(r[29]), wide(r[30]));
        let given = match call {
            WINDOW_SHARE => E::window_share(r[7], run, first, w),
            NEXT_WINDOW => E::next_window(r[7], run, first, w, r[28]),
            _ => Share { number: E::flags_fit(run), share: 0 },
        };
        Reply { number: given.number, read: given.share as usize, bytes: 0 }
    }

    /// The record that the registers name.
    pub fn record(&self) -> &[u8] {
        let bytes = self.registers[12].min(4 * PLACE as u32);
        &self.arrays[RECORDS][range(RECORDS, PLACE * most(self.registers[13], 7), bytes)]
    }

    fn shown(&self, call: u32) -> String {
        let kept = [ONE, TWO, SCRATCHES, RECORDS].map(|a| sum_of(&self.arrays[a]));
        let written = [LINE, RESULT].map(|a| sum_of(&self.arrays[a]));
        let reply = &self.reply;
        let mut numbers = vec![reply.number as usize, reply.read, reply.bytes];
        let sums = if self.registers[31] == 0 { vec![sum(&written), sum(&kept)] } else { [&written[..], &kept].concat() };
        numbers.extend(sums.iter().map(|s| *s as usize));
        format!("{call}{}\n", shown(&numbers))
    }
}

fn shown<N: std::fmt::Display>(numbers: &[N]) -> String {
    numbers.iter().fold(String::new(), |mut text, n| {
        let _ = write!(text, ",{n}");
        text
    })
}
