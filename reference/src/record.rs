//! Words as bytes, and the record that a host keeps of a session (RULES 11.1).

use crate::entries::RECORD;
use crate::pool::End;
use crate::product::Right;
use crate::system::{Blinder, Solver};
use crate::Terms;

/// The whole words of bytes, lowest byte first.
pub fn words_of(bytes: &[u8]) -> Vec<u32> {
    bytes.chunks_exact(4).map(|b| u32::from_le_bytes([b[0], b[1], b[2], b[3]])).collect()
}

/// Words at the start of bytes; those behind them stay.
pub fn put_words(words: &[u32], out: &mut [u8]) {
    for (word, bytes) in words.iter().zip(out.chunks_exact_mut(4)) {
        bytes.copy_from_slice(&word.to_le_bytes());
    }
}

impl End {
    /// The end of a number of RULES 11.1.
    pub fn numbered(number: u32) -> Option<End> {
        [End::Left, End::Right, End::Blinder, End::Solver].into_iter().find(|end| end.number() == number)
    }

    pub fn number(self) -> u32 {
        match self {
            End::Left => 1,
            End::Right => 2,
            End::Blinder => 3,
            End::Solver => 4,
        }
    }
}

/// What a record holds.
#[derive(Clone)]
pub enum Session {
    None,
    Left(Terms),
    Right(Right),
    Blinder(Blinder),
    Solver(Solver),
}

/// Whether a record has a record's length, and a session that is open or looks like it.
pub fn is_open(record: &[u8]) -> bool {
    record.len() == RECORD && words_of(record)[7] != 0
}

impl Session {
    /// The session that a later step or a drop finds; left keeps none.
    pub fn of(record: &[u8]) -> Session {
        if record.len() != RECORD {
            return Session::None;
        }
        let w = words_of(record);
        let (terms, due) = (Terms { session: w[1], tape: w[2], q: w[3], m: w[4], k: w[5], p: w[6] }, w[7]);
        match End::numbered(w[0]) {
            Some(End::Right) => Session::Right(Right { terms, due }),
            Some(End::Blinder) => {
                Session::Blinder(Blinder { terms, due, m: w[8..264].try_into().unwrap(), y: w[264..280].try_into().unwrap() })
            }
            Some(End::Solver) => Session::Solver(Solver { terms, due, s: w[8..24].try_into().unwrap() }),
            _ => Session::None,
        }
    }

    /// The record's bytes.
    pub fn record(&self) -> Vec<u8> {
        let (end, terms, due, kept) = match self {
            Session::None => (0, Terms::default(), 0, Vec::new()),
            Session::Left(terms) => (End::Left.number(), *terms, 0, Vec::new()),
            Session::Right(s) => (End::Right.number(), s.terms, s.due, Vec::new()),
            Session::Blinder(s) => (End::Blinder.number(), s.terms, s.due, [&s.m[..], &s.y[..]].concat()),
            Session::Solver(s) => (End::Solver.number(), s.terms, s.due, s.s.to_vec()),
        };
        let words = [&[end, terms.session, terms.tape, terms.q, terms.m, terms.k, terms.p, due], &kept[..]].concat();
        let mut record = vec![0; RECORD];
        put_words(&words, &mut record);
        record
    }
}
