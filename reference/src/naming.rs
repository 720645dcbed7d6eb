//! The machine's calls and their answers by name, for those who count them or read of a difference.

use crate::entries::{Entries, RECORD};
use crate::faults::word;
use crate::machine::*;
use crate::matrix::Matrix;
use crate::pool::{End, HEADER};
use crate::record::{words_of, Session};
use crate::system::scratch_size;
use crate::words::draw;
use crate::Terms;

impl<E: Entries> Machine<E> {
    /// The call that the registers and the record make of an entry, by name.
    pub fn name(&self, call: u32) -> String {
        let end = |n: u32| ["of no end", "left", "right", "blinder", "solver"][if n < 5 { n as usize } else { 0 }];
        let (told, t) = (self.registers[11], self.terms());
        match call {
            DEAL => ["deal product", "deal system", "deal of no sort"][told.min(2) as usize].to_string() + square(told == 1, &t),
            FIRST => format!("first {}{}", end(told), square(matches!(told, 3 | 4), &t)),
            NEXT | DROP => format!("{}{}", if call == NEXT { "next" } else { "drop" }, held(self.record(), call)),
            _ => SMALL.get((call - VERSION) as usize).unwrap_or(&"none").to_string(),
        }
    }

    /// The answer as a word: accepted or the refusal's; zero where a small entry that refuses nothing gave 0.
    pub fn answer(&self, call: u32) -> &'static str {
        let gave = self.reply.read + self.reply.bytes != 0;
        match (call, self.reply.number) {
            (VERSION..=IS_PRIME | REFUSAL_WORD, _) if !gave => "zero",
            (_, 0) => "accepted",
            (_, number) => word(number),
        }
    }

    /// Of a call that was refused for a matrix without an inverse: which, by its letter in the rules.
    pub fn singular(&self, call: u32) -> &'static str {
        let (r, t, n) = (&self.registers, self.terms(), self.terms().rows());
        let is_regular = |words: &[u32]| Matrix::new(t.q, n, n, words).is_regular();
        match call {
            DEAL => "Q",
            FIRST if r[11] == End::Solver.number() => "L",
            FIRST => {
                let coins = draw(t.q, scratch_size(&t), &self.words(RAW, 0, r[27] / 4));
                let p = coins.map_or(true, |(residues, _)| is_regular(&residues[..n * n]));
                match (is_regular(&self.words(INPUT, 0, t.m * t.m)), p) {
                    (false, true) => "M",
                    (true, false) => "P",
                    _ => "M and P",
                }
            }
            NEXT => match Session::of(self.record()) {
                Session::Blinder(s) => self.divisor(&s.terms),
                _ => "W + V",
            },
            _ => "the matrix",
        }
    }

    /// Of what a determinant is divided by: which has no inverse, P in the scratch or Q on the tape.
    fn divisor(&self, t: &Terms) -> &'static str {
        let (r, n) = (&self.registers, t.rows());
        let slot = wide(r[3]) * wide(r[4]);
        let before = slot + HEADER + n * t.inner() + n * t.columns();
        let pool = if r[0] == 0 { ONE } else { TWO };
        // as the call is lent them: a small P may stand behind the array's last word
        let words = |array: usize, at: usize| words_of(&self.arrays[array][range(array, at, 4 * t.m * t.m)]);
        let is_regular = |array: usize, at: usize| Matrix::new(t.q, n, n, &words(array, at)).is_regular();
        match (is_regular(SCRATCHES, r[14] as usize), is_regular(pool, before)) {
            (false, true) => "kept P",
            (true, false) => "dealt Q",
            _ => "kept P and dealt Q",
        }
    }
}

/// Behind a name: of a determinant.
fn square(is_system: bool, t: &Terms) -> &'static str {
    if is_system && t.is_determinant() {
        ", p = n"
    } else {
        ""
    }
}

/// The entries that are no dealing, step or drop, from `VERSION` on.
const SMALL: [&str; 15] = [
    "version",
    "record_words",
    "tape_words",
    "scratch_words",
    "line_bytes",
    "coin_count",
    "deal_count",
    "is_prime",
    "has_inverse",
    "to_residue",
    "to_score",
    "refusal_word",
    "window_share",
    "next_window",
    "flags_fit",
];

/// Which step or drop stands for a record, as the end of a call's name.
fn held(record: &[u8], call: u32) -> String {
    let due = if record.len() == RECORD { words_of(record)[7] } else { 0 };
    let session = Session::of(record);
    let (end, second, terms) = match &session {
        Session::None | Session::Left(_) => return " (no session)".to_string(),
        _ if due == 0 => return " (closed)".to_string(),
        Session::Right(_) => ("right", 0, None),
        Session::Solver(s) => ("solver", 2, Some(s.terms)),
        Session::Blinder(s) => ("blinder", 3, Some(s.terms)),
    };
    let step = match call {
        NEXT if due == second => " second",
        NEXT => " last",
        _ => "",
    };
    format!(" {end}{step}{}", terms.map_or("", |t| square(true, &t)))
}
