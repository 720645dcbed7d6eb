//! How a call can go wrong: one register, one word or one part of the message changed, or another call made in its place.

use super::plan::{tape_size, Plan, Step};
use super::writer::Writer;
use crate::entries::RECORD;
use crate::faults::SINGULAR;
use crate::machine::*;
use crate::pool::{End, HEADER};
use crate::Terms;

/// A change of a message's line.
#[derive(Clone)]
pub enum Edit {
    /// A number by its place, and what stands there then.
    Number(u32, u32),
    /// A place, how many bytes go, and what stands there then.
    Bytes(u32, u32, Vec<u8>),
}

#[derive(Clone)]
pub struct Damage {
    pub call: u32,
    pub registers: Registers,
    /// Array, index, value.
    pub pokes: Vec<(usize, usize, u32)>,
    pub edits: Vec<Edit>,
}

impl Damage {
    pub fn none(call: u32, registers: Registers) -> Damage {
        Damage { call, registers, pokes: Vec::new(), edits: Vec::new() }
    }

    /// Both at once.
    pub fn and(&self, other: &Damage, right: &Registers) -> Damage {
        let mut both = self.clone();
        for (i, value) in other.registers.iter().enumerate().filter(|(i, value)| right[*i] != **value) {
            both.registers[i] = *value;
        }
        both.pokes.extend(&other.pokes);
        both.edits.extend(other.edits.clone());
        both
    }

    /// Refused, and nothing changes.
    pub fn is_refused(&self, writer: &Writer) -> bool {
        let number = writer.tried(self).number;
        number != 0 && (number != SINGULAR || self.call != NEXT)
    }
}

/// Registers and values: where the slot is.
fn places(plan: &Plan, step: Step, r: &Registers) -> Vec<(usize, u32)> {
    let past = plan.layout.slots as u32;
    let pool = 1 + r[0] as usize;
    let bytes = 4 * r[3] * (r[4] + 1);
    let mut all = vec![(pool, 0), (pool, bytes - 4), (pool, bytes - 1), (pool, bytes), (pool, r[pool] + 1), (pool, r[pool] + 2)];
    all.extend([(3, 0), (3, r[3] + 1), (3, u32::MAX), (3, 1 << 31), (4, past), (4, u32::MAX), (4, 1 << 31)]);
    if plan.layout.slots > 1 {
        all.push((4, (r[4] + 1) % past));
    }
    match step.end() {
        None => all.extend([(1, 0), (2, 0), (1, r[1] - 3), (2, r[2] + 3), (3, tape_size(plan.is_system, &plan.terms) as u32 - 1)]),
        Some(end) => all.extend([(3, (HEADER + end.body(&plan.terms)) as u32 - 1), (0, 1 - r[0])]),
    }
    all
}

/// Registers and values: whose call it is, and lengths that must be exact or whole words, also of what the call has no use of.
fn lengths(step: Step, r: &Registers) -> Vec<(usize, u32)> {
    let mut all = Vec::new();
    if matches!(step.call(), DEAL | FIRST) {
        all.extend([0, 1, 2, 3, 4, 5, 256, 1 << 31, u32::MAX].map(|end| (11, end)));
        all.extend([r[27] + 1, r[27] + 3].map(|bytes| (27, bytes)));
    }
    if step.draws() {
        all.extend([0, r[27] - 4, r[27] - 1, r[27] / 8 * 4].map(|bytes| (27, bytes)));
    }
    if step.call() == FIRST {
        all.extend([0, r[25] - 4, r[25] - 1, r[25] + 1, r[25] + 4].map(|bytes| (25, bytes)));
        all.push((21, 0));
    }
    if step != Step::Deal {
        let record = RECORD as u32;
        all.extend([0, 4, 32, record - 4, record - 1, record + 1, record + 4].map(|bytes| (12, bytes)));
        all.extend([(13, (r[13] + 1) % 8), (13, (r[13] + 4) % 8), (15, r[15] + 1), (15, r[15] + 2)]);
    }
    if matches!(step.call(), FIRST | NEXT) {
        all.extend([(20, r[20] + 1), (20, r[20] + 3)]);
    }
    all
}

/// Registers and values: what is taken, and rooms that are too small, or just large enough.
fn rooms(plan: &Plan, step: Step, r: &Registers, writer: &Writer) -> Vec<(usize, u32)> {
    let mut all = Vec::new();
    if step.takes() != 0 {
        let message = writer.machine.mail[r[16] as usize].len() as u32;
        all.extend([0, 1, message.saturating_sub(1)].map(|bytes| (17, bytes)));
        all.extend([(r[16] + 1) % 4, SPARE].map(|of| (16, of)));
    }
    if step.sends() {
        let line = writer.line_length(step.call(), r);
        all.extend([line, line.saturating_sub(1), line + 1, 7, 0].map(|bytes| (19, bytes)));
    }
    let (result, scratch) = (4 * step.result(&plan.terms) as u32, 4 * step.scratch(&plan.terms) as u32);
    if result != 0 {
        all.extend([0, result - 4, result - 1, result].map(|bytes| (20, bytes)));
    }
    if scratch != 0 {
        all.extend([0, scratch - 4, scratch - 1, scratch].map(|bytes| (15, bytes)));
        all.extend([(14, 1800), (14, (r[14] + 600) % 1800)]);
    }
    all
}

/// Registers and values: what a call is told.
fn told(t: &Terms) -> Vec<(usize, u32)> {
    let mut all = vec![(5, 0), (5, t.session.wrapping_add(1)), (6, 0), (6, t.tape.wrapping_add(1))];
    all.extend([0, 1, 1 << 31, u32::MAX, 4, 6, t.q + 1, 2, 65_537].map(|q| (7, q)));
    all.extend([0, t.m + 1, 17, 33, u32::MAX].map(|m| (8, m)));
    all.extend([0, t.k + 1, 17, 2049, u32::MAX].map(|k| (9, k)));
    all.extend([0, t.p - 1, t.p + 1, 18, 33, u32::MAX].map(|p| (10, p)));
    all
}

/// Offsets and values of the tape number, q and the sides, which stand in this order in tapes and messages.
fn header(t: &Terms, tape: usize, q: usize) -> Vec<(usize, u32)> {
    let mut all = vec![(tape, t.tape ^ 1), (tape, 0)];
    all.extend([0, 1, u32::MAX, t.q + 1, 6].map(|value| (q, value)));
    for (i, side) in [t.m, t.k, t.p].into_iter().enumerate() {
        all.extend([0, side - 1, side + 1, 33, u32::MAX].map(|n| (q + 1 + i, n)));
    }
    all
}

/// Words of the pools.
fn tapes(plan: &Plan, step: Step) -> Vec<(usize, usize, u32)> {
    let t = &plan.terms;
    let (pool, at) = plan.slot(step);
    let Some(end) = step.end() else {
        return [ONE, TWO].into_iter().flat_map(|pool| [1, 2, 4, u32::MAX].map(|mark| (pool, at, mark))).collect();
    };
    let mut all: Vec<(usize, usize, u32)> = [0, 1, 2, 3, 4, u32::MAX].map(|mark| (pool, at, mark)).to_vec();
    all.extend([1 - u32::from(plan.is_system), 2].map(|sort| (pool, at + 2, sort)));
    all.extend(header(t, 1, 3).into_iter().map(|(i, w)| (pool, at + i, w)));
    let body = end.body(t);
    all.extend([0, body / 2, body - 1].map(|i| (pool, at + HEADER + i, t.q)));
    all.push((pool, at + HEADER, u32::MAX));
    all
}

/// Offsets and values of a record: each number, and what is kept and stands behind it.
pub fn record(plan: &Plan, end: End) -> Vec<(usize, u32)> {
    let (t, n) = (&plan.terms, plan.terms.rows());
    let mut all: Vec<(usize, u32)> = [0, 1, 2, 3, 4, 5, 256, u32::MAX].map(|end| (0, end)).to_vec();
    all.extend([0, 1, 2, 3, 4, 5, 6, 7, 9, 256, u32::MAX].map(|due| (7, due)));
    all.extend(told(t).into_iter().map(|(i, w)| (i - 4, w)));
    let kept = match end {
        End::Solver => vec![8, 7 + n, 8 + n, 23, 24, 279],
        End::Blinder => vec![8, 7 + n * n, 8 + n * n, 263, 264, 263 + n, 264 + n, 279],
        End::Left | End::Right => vec![8, 24, 279],
    };
    all.extend(kept.into_iter().map(|i| (i, t.q)));
    all
}

fn words(plan: &Plan, step: Step) -> Vec<(usize, usize, u32)> {
    let (r, t) = (plan.registers(step), &plan.terms);
    let mut all = tapes(plan, step);
    let Some(end) = step.end() else { return all };
    let n = t.rows();
    if end == End::Blinder && step != Step::BlinderFirst {
        let size = step.scratch(t);
        all.extend([0, n * n - 1, n * n, size - 1, size].map(|i| (SCRATCHES, r[14] as usize + i, t.q)));
    }
    all.extend(record(plan, end).into_iter().map(|(i, w)| (RECORDS, plan.place(step) * PLACE + i, w)));
    all
}

/// Changes of the message that is taken.
fn edits(plan: &Plan, step: Step, line: &[u8]) -> Vec<Edit> {
    let (t, length) = (&plan.terms, line.len() as u32);
    if step.takes() == 0 || length == 0 {
        return Vec::new();
    }
    let mut all: Vec<Edit> = [0, 1, 2, 3, 4, 5, 6, 7, u32::MAX].map(|kind| Edit::Number(0, kind)).to_vec();
    all.extend([0, t.session ^ 1].map(|session| Edit::Number(1, session)));
    all.extend(header(t, 2, 3).into_iter().map(|(i, w)| Edit::Number(i as u32, w)));
    let last = 6 + plan.taken(step) as u32;
    all.extend([(7, t.q), (last, u32::MAX), (last, t.q - 1), (7, 0), (last + 1, 0), (last + 1, t.q)].map(|(i, w)| Edit::Number(i, w)));
    let mut bytes = |at: u32, n: u32, new: &[u8]| all.push(Edit::Bytes(at, n, new.to_vec()));
    // without its end, with two, with something behind it, and with a residue less
    bytes(length - 1, 1, b"");
    bytes(length, 0, b"\n");
    bytes(length, 0, b"1,2\n");
    bytes(length - 1, 0, b",");
    bytes(length - 1, 1, b"\r\n");
    let comma = line.iter().rposition(|b| *b == b',').unwrap_or(0) as u32;
    bytes(comma, length - 1 - comma, b"");
    // zeros, blanks, signs and other bytes in front of a number
    for new in [b"0", b" ", b"+", b"-", b",", b"\n", b"a", b"\0", b"\xff"] {
        bytes(comma + 1, 0, new);
        bytes(0, 0, new);
    }
    bytes(comma + 1, length - 2 - comma, b"4294967296");
    bytes(comma + 1, length - 2 - comma, b"00");
    all
}

/// Another call in a step's place.
fn others(step: Step) -> Vec<u32> {
    match step.call() {
        DEAL => Vec::new(),
        own => [FIRST, NEXT, DROP].into_iter().filter(|other| *other != own).collect(),
    }
}

/// Every damage of a step by one change. Those that change nothing are left out.
pub fn single(plan: &Plan, step: Step, writer: &Writer) -> Vec<Damage> {
    let registers = plan.registers(step);
    let right = Damage::none(step.call(), registers);
    let with = |(i, value): (usize, u32)| {
        let mut damage = right.clone();
        damage.registers[i] = value;
        damage
    };
    let mut changes = places(plan, step, &registers);
    changes.extend(lengths(step, &registers));
    changes.extend(rooms(plan, step, &registers, writer));
    if matches!(step.call(), DEAL | FIRST) {
        changes.extend(told(&plan.terms));
    }
    let mut all: Vec<Damage> = changes.into_iter().map(with).filter(|damage| damage.registers != registers).collect();
    let pokes = words(plan, step).into_iter().filter(|(array, at, value)| writer.word(*array, *at) != *value);
    all.extend(pokes.map(|poke| Damage { pokes: vec![poke], ..right.clone() }));
    let line = &writer.machine.mail[registers[16] as usize];
    all.extend(edits(plan, step, line).into_iter().map(|edit| Damage { edits: vec![edit], ..right.clone() }));
    all.extend(others(step).into_iter().map(|call| Damage { call, ..right.clone() }));
    all
}
