//! Lines of numbers, and messages as lines.

use crate::faults::{Faults, FORM, SIZE};
use crate::message::is_kind;
use crate::{Message, Terms};

pub const LONGEST: usize = 65_536;

/// The numbers of a slice that is exactly one line.
pub fn numbers(bytes: &[u8]) -> Option<Vec<u32>> {
    let (end, text) = bytes.split_last()?;
    if *end != b'\n' || bytes.len() > LONGEST {
        return None;
    }
    text.split(|b| *b == b',').map(number).collect()
}

fn number(digits: &[u8]) -> Option<u32> {
    let plain = !digits.is_empty() && digits.iter().all(u8::is_ascii_digit) && (digits.len() == 1 || digits[0] != b'0');
    if !plain || digits.len() > 10 {
        return None;
    }
    u32::try_from(digits.iter().fold(0u64, |n, d| n * 10 + u64::from(d - b'0'))).ok()
}

pub fn text(numbers: &[u32]) -> String {
    numbers.iter().map(u32::to_string).collect::<Vec<_>>().join(",") + "\n"
}

/// A message's form alone: the number of the refusal where it has none.
pub fn parse(bytes: &[u8]) -> Result<Message, u32> {
    let all = numbers(bytes).ok_or(FORM)?;
    if all.len() < 7 || !is_kind(all[0]) {
        return Err(FORM);
    }
    let terms = Terms { session: all[1], tape: all[2], q: all[3], m: all[4], k: all[5], p: all[6] };
    Ok(Message { kind: all[0], terms, residues: all[7..].to_vec() })
}

/// The line of a message.
pub fn write(a: &Message) -> String {
    let t = &a.terms;
    let mut all = vec![a.kind, t.session, t.tape, t.q, t.m, t.k, t.p];
    all.extend(&a.residues);
    text(&all)
}

// ---- the entries: a slice of `room` words or bytes is lent

pub fn numbers_into(room: usize, bytes: &[u8]) -> Result<Vec<u32>, u32> {
    let all = numbers(bytes).ok_or(FORM)?;
    if all.len() <= room {
        Ok(all)
    } else {
        Err(SIZE)
    }
}

/// The form alone, where the slice holds the residues.
pub fn parse_into(room: usize, bytes: &[u8]) -> Result<Message, u32> {
    let message = parse(bytes)?;
    if message.residues.len() <= room {
        Ok(message)
    } else {
        read_into(room, bytes)
    }
}

pub fn read_into(room: usize, bytes: &[u8]) -> Result<Message, u32> {
    let message = parse(bytes)?;
    judged(&message, message.residues.len(), room)?;
    Ok(message)
}

pub fn write_into(room: usize, message: &Message) -> Result<String, u32> {
    let line = write(message);
    judged(message, line.len(), room)?;
    Ok(line)
}

/// All that a message shows by itself, and the room for `count` words or bytes.
fn judged(message: &Message, count: usize, room: usize) -> Result<(), u32> {
    let mut faults = Faults::new();
    faults.message(message);
    faults.room(count, room);
    match faults.lowest() {
        0 => Ok(()),
        number => Err(number),
    }
}
