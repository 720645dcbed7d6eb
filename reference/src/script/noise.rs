//! Calls with any numbers, on whatever the machine holds, messages of any bytes, and windows of days.

use super::driver::{product_terms, system_terms};
use super::random::Random;
use super::writer::Writer;
use crate::entries::RECORD;
use crate::line;
use crate::machine::*;
use crate::message::count;
use crate::Message;

fn number(random: &mut Random) -> u32 {
    match random.below(8) {
        0 => 0,
        1 => random.from(1, 7),
        2 => random.from(1, 40),
        3 => *random.one_of(&[16, 17, 23, 32, 33, 256, 279, 528, 1119, 1120, 1121, 2048, 2049, 3072, 65_536]),
        4 => *random.one_of(&[u32::MAX, 1 << 31, (1 << 31) - 1, u32::MAX - 7]),
        5 => 1 << random.below(32),
        _ => random.next() as u32,
    }
}

impl Writer {
    /// A call with some registers changed and some words of what it may be lent.
    pub fn any_call(&mut self, random: &mut Random) {
        let call = random.from(DEAL, DROP);
        let mut r = self.machine.registers;
        // a record of another length, an end that is none, odd bytes and empty boxes are refused at once
        if random.once_in(2) {
            r[11] = if call == DEAL { random.from(0, 1) } else { random.from(1, 4) };
            (r[12], r[13]) = (RECORD as u32, random.from(0, 7));
            (r[16], r[17]) = (random.from(0, SPARE), u32::MAX);
            [1, 2, 15, 20, 25, 27].into_iter().for_each(|i| r[i] &= !3);
        }
        for _ in 0..random.below(6) {
            r[random.below(29) as usize] = number(random);
        }
        for _ in 0..random.below(3) {
            let array = random.below(4) as usize;
            let near = match array {
                ONE | TWO => (r[3] as usize).wrapping_mul(r[4] as usize),
                SCRATCHES => r[14] as usize,
                _ => r[13].min(7) as usize * PLACE,
            };
            let words = [POOL, POOL, 3 * SCRATCH, 8 * PLACE][array];
            let at = near.wrapping_add(random.below(12) as usize) % words;
            let value = number(random);
            self.put(array, at, &[value]);
        }
        self.call(call, &r);
    }

    /// A message as it should be, or with one number changed; of the terms that the registers have, or of others.
    fn any_message(&mut self, random: &mut Random) -> Message {
        let large = random.once_in(30);
        let is_system = random.once_in(2);
        let terms = if is_system { system_terms(random, large) } else { product_terms(random, large) };
        let kind = random.from(1, if is_system { 6 } else { 2 });
        let residues = seeded(random.from(1, 60_000), terms.q, count(kind, &terms));
        let mut message = Message { kind, terms, residues };
        if random.once_in(3) {
            let t = &mut message.terms;
            *[&mut t.session, &mut t.tape, &mut t.q, &mut t.m, &mut t.k, &mut t.p, &mut message.kind][random.below(7) as usize] =
                number(random);
        }
        // a message of kind 5 has none where p is n
        if !message.residues.is_empty() && random.once_in(6) {
            let at = random.below(message.residues.len() as u64) as usize;
            message.residues[at] = number(random);
        }
        message
    }

    /// A line, as it should be or damaged, that arrives at any first or later step.
    pub fn any_line(&mut self, random: &mut Random) {
        let mut bytes = line::write(&self.any_message(random)).into_bytes();
        for _ in 0..[0, 0, 1, 1, 2, 5][random.below(6) as usize] {
            let at = random.below(bytes.len() as u64) as usize;
            let byte = *random.one_of(b"0123456789,,\n\n +-x\0\xff");
            match random.below(4) {
                0 => bytes.insert(at, byte),
                1 => drop(bytes.remove(at)),
                2 => bytes.truncate(at + 1),
                _ => bytes[at] = byte,
            }
            if bytes.is_empty() {
                bytes.push(byte);
            }
        }
        self.post(SPARE, &bytes);
        if random.once_in(20) {
            self.lengthen(random);
        }
        let mut r = self.machine.registers;
        (r[11], r[12], r[13], r[16], r[17]) = (random.from(0, 4), RECORD as u32, random.from(0, 7), SPARE, u32::MAX);
        for call in [FIRST, NEXT] {
            self.call(call, &r);
        }
    }

    /// What is in the spare box with zeros behind it, to the longest line or some bytes less or more.
    fn lengthen(&mut self, random: &mut Random) {
        let text = self.machine.mail[SPARE as usize].len() as u32 - 1;
        let zeros = (random.from(65_530, 65_540) - text) / 2 * 2;
        self.say(&[5, SPARE, text, zeros, 44, 48]);
        self.say(&[4, SPARE, text + zeros, 10]);
    }

    /// A small entry with numbers near those of the registers, or any.
    pub fn any_small(&mut self, random: &mut Random) {
        let call = random.from(VERSION, REFUSAL_WORD);
        let is_system = random.once_in(2);
        let large = random.once_in(4);
        let t = if is_system { system_terms(random, large) } else { product_terms(random, large) };
        let mut r = self.machine.registers;
        r[7..11].copy_from_slice(&[t.q, t.m, t.k, t.p]);
        r[11] = random.from(0, 7);
        r[19] = random.from(0, 12);
        (r[21], r[22], r[23], r[25]) = (t.q, random.from(0, 60_000), t.m * t.m, 4 * t.m * t.m);
        r[28] = match call {
            REFUSAL_WORD => random.from(0, 12),
            _ if random.once_in(2) => (random.next() as u32 % t.q).wrapping_sub(t.q / 2 * random.from(0, 1)),
            _ => number(random),
        };
        if random.once_in(4) {
            r[*random.one_of(&[7, 8, 9, 10, 21, 25, 28])] = number(random);
        }
        // of these few calls have another modulus, or words of another
        if matches!(call, HAS_INVERSE | TO_RESIDUE | TO_SCORE) && random.once_in(16) {
            r[7] = *random.one_of(&[0, 1, 1 << 31, u32::MAX]);
        }
        if call == HAS_INVERSE && random.once_in(16) {
            r[21] = 0;
        }
        self.call(call, &r);
    }

    /// A call on a run of days that mostly fits, near the edges of windows and runs, or with any number or day.
    pub fn any_window(&mut self, random: &mut Random) {
        let call = random.from(WINDOW_SHARE, FLAGS_FIT);
        let (low, high) = *random.one_of(&[(0, 2), (2040, 2050), (1, 60), (1, 60), (1, 60)]);
        let days = random.from(low, high);
        let q = *random.one_of(&[2, 3, 31, 61, 2049, 2_147_483_646, 2_147_483_647]);
        let w = random.from(1, days.min(q - 1).max(1));
        let first = random.from(0, days.saturating_sub(w));
        let modulus = if call == FLAGS_FIT { 2 } else { q };
        self.say(&[1, INPUT as u32, 0, days + 2, random.from(1, 60_000), modulus]);
        if random.once_in(3) {
            let (any_day, any_value) = (random.from(0, days), number(random));
            let day = *random.one_of(&[first, first + w - 1, first + w, any_day]);
            let value = *random.one_of(&[modulus, modulus - 1, u32::MAX, any_value]);
            self.put(INPUT, day as usize, &[value]);
        }
        let mut r = self.machine.registers;
        (r[7], r[22], r[24], r[25]) = (q, 0, 0, 4 * days);
        r[28..31].copy_from_slice(&[random.from(0, q - 1), first, w]);
        if random.once_in(3) {
            let register = *random.one_of(&[7, 25, 28, 29, 30]);
            let near = r[register].wrapping_add_signed(*random.one_of(&[-1, 1]));
            r[register] = if random.once_in(2) { near } else { number(random) };
        }
        self.call(call, &r);
    }
}
