//! The rules (docs/RULES.md) once more, in plain Rust: what the engine's answers are compared with.
//!
//! It is written from the rules, not from the engine. Matrices are rows of `u64`, every call first gathers its faults, first of the list
//! first, and nothing is done for speed.

pub mod answers;
pub mod dealer;
pub mod determinant;
pub mod entries;
pub mod faults;
pub mod line;
pub mod machine;
pub mod matrix;
pub mod message;
pub mod naming;
pub mod pool;
pub mod product;
pub mod record;
pub mod rehearsal;
pub mod scores;
pub mod script;
pub mod sizes;
pub mod system;
pub mod window;
pub mod words;

/// The numbers that the ends of a session agree on.
#[derive(Clone, Copy, Debug, Default, PartialEq, Eq)]
pub struct Terms {
    pub session: u32,
    pub tape: u32,
    pub q: u32,
    pub m: u32,
    pub k: u32,
    pub p: u32,
}

impl Terms {
    pub fn product(session: u32, tape: u32, q: u32, m: u32, k: u32, p: u32) -> Self {
        Terms { session, tape, q, m, k, p }
    }

    /// A system of n unknowns.
    pub fn system(session: u32, tape: u32, q: u32, n: u32) -> Self {
        Terms { session, tape, q, m: n, k: n, p: n.wrapping_add(1) }
    }

    /// The determinant of a sum of n by n matrices: a system without its vectors, and so with as many columns as rows.
    pub fn determinant(session: u32, tape: u32, q: u32, n: u32) -> Self {
        Terms { session, tape, q, m: n, k: n, p: n }
    }

    /// Whether terms of a system's sort are those of a determinant.
    pub fn is_determinant(&self) -> bool {
        self.p == self.m
    }

    /// The kind of the last message of a system or a determinant.
    pub fn last_kind(&self) -> u32 {
        if self.is_determinant() {
            6
        } else {
            5
        }
    }

    pub fn rows(&self) -> usize {
        self.m as usize
    }

    pub fn inner(&self) -> usize {
        self.k as usize
    }

    pub fn columns(&self) -> usize {
        self.p as usize
    }

    /// The columns of x, y, c and t: one in a system, none in a determinant.
    pub fn vectors(&self) -> usize {
        self.columns().saturating_sub(self.rows())
    }
}

/// A message as it goes over the wire. All zeros and no residues where nothing is sent.
#[derive(Clone, Debug, Default, PartialEq, Eq)]
pub struct Message {
    pub kind: u32,
    pub terms: Terms,
    pub residues: Vec<u32>,
}

/// What a dealing or a step answers, beside what it changes.
#[derive(Clone, Debug, Default, PartialEq, Eq)]
pub struct Reply {
    /// 0, or the number of the refusal list.
    pub number: u32,
    /// Raw words read.
    pub read: usize,
    pub message: Message,
    /// A share, the solution, or the determinant.
    pub result: Vec<u32>,
}

impl Reply {
    pub fn refused(number: u32) -> Self {
        Reply { number, ..Default::default() }
    }
}
