//! A script and the machine that performs it.

use super::damage::{Damage, Edit};
use super::tally::Tally;
use crate::answers::Reference;
use crate::entries::Reply;
use crate::faults::SINGULAR;
use crate::line::text;
use crate::machine::{Machine, Registers, LINE_ROOM, REGISTERS, SPARE};

/// What is told each line, and the machine after it.
pub type Observer = Box<dyn FnMut(&[u32], &Machine<Reference>)>;

#[derive(Default)]
pub struct Writer {
    pub machine: Machine<Reference>,
    pub observer: Option<Observer>,
    pub script: String,
    /// What the machine has printed.
    pub printed: String,
    /// The last call by its name.
    pub name: String,
    pub tally: Tally,
}

/// The lines that make an edited message of the one in a box, in the spare box.
fn edited(of: u32, edits: &[Edit]) -> Vec<Vec<u32>> {
    let lines = edits.iter().enumerate().map(|(i, edit)| {
        let from = if i == 0 { of } else { SPARE };
        match edit {
            Edit::Number(at, value) => vec![6, from, SPARE, *at, *value],
            Edit::Bytes(at, n, bytes) => {
                [&[7, from, SPARE, *at, *n][..], &bytes.iter().map(|b| u32::from(*b)).collect::<Vec<_>>()].concat()
            }
        }
    });
    lines.collect()
}

impl Writer {
    pub fn say(&mut self, line: &[u32]) {
        self.script += &text(line);
        self.printed += &self.machine.perform(line);
        if let Some(observer) = &mut self.observer {
            observer(line, &self.machine);
        }
    }

    pub fn put(&mut self, array: usize, at: usize, words: &[u32]) {
        for (i, part) in words.chunks(60).enumerate() {
            self.say(&[&[2, array as u32, (at + 60 * i) as u32], part].concat());
        }
    }

    /// A box's bytes.
    pub fn post(&mut self, to: u32, bytes: &[u8]) {
        self.say(&[4, to, 0]);
        for (i, part) in bytes.chunks(60).enumerate() {
            let part: Vec<u32> = part.iter().map(|b| u32::from(*b)).collect();
            self.say(&[&[4, to, 60 * i as u32][..], &part].concat());
        }
    }

    pub fn print(&mut self, array: usize, at: usize, count: usize) {
        self.say(&[3, array as u32, at as u32, count as u32]);
    }

    pub fn word(&self, array: usize, at: usize) -> u32 {
        self.machine.words(array, at as u32, 1)[0]
    }

    /// The call with these registers: only those that differ are written.
    pub fn call(&mut self, call: u32, wanted: &Registers) -> u32 {
        let mut ranges = self.differing(wanted);
        let last = ranges.pop();
        for (from, to) in ranges {
            self.say(&[&[0, from as u32], &wanted[from..to]].concat());
        }
        // the record that is there before the call names it
        let told = std::mem::replace(&mut self.machine.registers, *wanted);
        self.name = self.machine.name(call);
        self.machine.registers = told;
        match last {
            Some((from, to)) => self.say(&[&[call, from as u32], &wanted[from..to]].concat()),
            None => self.say(&[call]),
        }
        let answer = self.machine.answer(call);
        *self.tally.answers.entry((self.name.clone(), answer)).or_default() += 1;
        if self.machine.reply.number == SINGULAR {
            *self.tally.matrices.entry(self.machine.singular(call)).or_default() += 1;
        }
        self.machine.reply.number
    }

    fn differing(&self, wanted: &Registers) -> Vec<(usize, usize)> {
        let mut ranges: Vec<(usize, usize)> = Vec::new();
        for i in (0..REGISTERS).filter(|i| self.machine.registers[*i] != wanted[*i]) {
            match ranges.last_mut() {
                Some((_, end)) if i <= *end + 2 => *end = i + 1,
                _ => ranges.push((i, i + 1)),
            }
        }
        ranges
    }

    /// What the call would answer; nothing is written.
    pub fn tried(&self, damage: &Damage) -> Reply {
        let mut machine = self.machine.clone();
        machine.quiet = true;
        machine.registers = damage.registers;
        for (array, at, value) in &damage.pokes {
            machine.perform(&[2, *array as u32, *at as u32, *value]);
        }
        for line in edited(damage.registers[16], &damage.edits) {
            machine.perform(&line);
            machine.registers[16] = SPARE;
        }
        machine.perform(&[damage.call]);
        machine.reply
    }

    /// A damaged call; where it is refused, its words are put back.
    pub fn damaged(&mut self, damage: &Damage) -> u32 {
        let old: Vec<u32> = damage.pokes.iter().map(|(array, at, _)| self.word(*array, *at)).collect();
        for (array, at, value) in &damage.pokes {
            self.put(*array, *at, &[*value]);
        }
        let mut registers = damage.registers;
        for line in edited(registers[16], &damage.edits) {
            self.say(&line);
            registers[16] = SPARE;
        }
        let answer = self.call(damage.call, &registers);
        if answer != 0 {
            for ((array, at, _), value) in damage.pokes.iter().zip(old).rev() {
                self.put(*array, *at, &[value]);
            }
        }
        answer
    }

    /// The bytes of the line that a call would write; all the room where it is refused.
    pub fn line_length(&self, call: u32, registers: &Registers) -> u32 {
        let mut damage = Damage::none(call, *registers);
        damage.registers[19] = LINE_ROOM as u32;
        match self.tried(&damage) {
            Reply { number: 0, bytes, .. } => bytes as u32,
            _ => LINE_ROOM as u32,
        }
    }
}
