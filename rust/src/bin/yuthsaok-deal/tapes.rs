//! Files of tapes: a pool, and how it is cut.

use std::fs;
use std::io::ErrorKind;
use std::path::Path;

use yuthsaok::{Pool, Slot, Status, Tape};

/// The bytes of a tape's header.
const HEADER: usize = 28;

/// The pool in a file, or what is wrong with the file. In every slot stands one tape and behind it zeros, or zeros alone: where a pool is
/// cut by a wrong size, words of matrices would pass for headers. The first slot begins with the file; where the second does not begin
/// with a slot, the header before it lies inside the first, which then is not zeros behind its own tape.
pub fn read(path: &Path, slot_words: Option<usize>) -> Result<Pool, String> {
    let bytes = fs::read(path).map_err(|error| format!("{} can't be read: {error}", path.display()))?;
    cut(bytes, slot_words).map_err(|why| format!("{} is no file of tapes: {why}", path.display()))
}

fn cut(bytes: Vec<u8>, slot_words: Option<usize>) -> Result<Pool, String> {
    let length = bytes.len();
    if length == 0 {
        return Err("it is empty".into());
    }
    if !length.is_multiple_of(4) {
        return Err(format!("its {length} bytes are not whole words"));
    }
    let size = match slot_words.or_else(|| told_size(&bytes)) {
        Some(size) => size,
        None => return Err("it does not begin with a tape (where its first slot is empty, --slot-words says how it is cut)".into()),
    };
    if !length.is_multiple_of(4 * size) {
        return Err(format!("its {} words are not whole slots of {size} words", length / 4));
    }
    let pool = Pool::from_bytes(bytes, size).map_err(|refusal| refusal.to_string())?;
    let stray = pool.tapes().find(|tape| !is_slot(&pool, *tape)).map(|tape| tape.slot);
    match stray {
        Some(slot) => Err(format!("cut by {size} words, slot {slot} holds no tape")),
        None => Ok(pool),
    }
}

/// The slot size that the first tape's sides tell.
fn told_size(bytes: &[u8]) -> Option<usize> {
    let head = Pool::from_bytes(bytes.get(..HEADER)?.to_vec(), HEADER / 4).ok()?;
    let tape = head.tape(Slot(0))?;
    (tape.status != Status::Empty).then(|| tape.shape())?.map(|shape| shape.slot_words())
}

fn is_slot(pool: &Pool, tape: Tape) -> bool {
    match tape.status {
        Status::Empty => is_zero_from(pool, tape, 0),
        Status::Unknown(_) => false,
        _ => tape.number.0 > 0 && tape.shape().is_some_and(|shape| is_zero_from(pool, tape, shape.slot_words())),
    }
}

/// Whether the slot has so many words, and behind them zeros.
fn is_zero_from(pool: &Pool, tape: Tape, words: usize) -> bool {
    let behind = pool.slot_bytes(tape.slot).and_then(|bytes| bytes.get(4 * words..));
    behind.is_some_and(|bytes| bytes.iter().all(|byte| *byte == 0))
}

pub fn count(pool: &Pool, status: Status) -> usize {
    pool.tapes().filter(|tape| tape.status == status).count()
}

/// Whether a file is there and may be written over, or why it may not. It may where nothing but headers of spent tapes stands in it: this
/// finds an unused tape even where the slots are cut otherwise than they seem.
pub fn is_used_up(path: &Path, hint: &str) -> Result<bool, String> {
    let name = path.display();
    match fs::metadata(path) {
        Err(error) if error.kind() == ErrorKind::NotFound => return Ok(false),
        Ok(there) if !there.is_file() => return Err(format!("{name} is not written over, since it is a folder or a device")),
        _ => (),
    }
    let bytes = fs::read(path).map_err(|error| format!("{name} can't be read: {error}"))?;
    if bytes.iter().all(|byte| *byte == 0) {
        return Ok(true);
    }
    let pool = cut(bytes, None).map_err(|why| format!("{name} is not written over, since it is no file of tapes: {why}"))?;
    let (ready, in_use) = (count(&pool, Status::Ready), count(&pool, Status::InUse));
    match ready + in_use {
        0 if pool.tapes().all(|tape| is_blank(&pool, tape)) => Ok(true),
        0 => Err(format!("{name} is not written over: it holds words that are no spent tape's")),
        1 => Err(format!("{name} is not written over: it has 1 tape that is not spent ({ready} ready, {in_use} in use){hint}")),
        n => Err(format!("{name} is not written over: it has {n} tapes that are not spent ({ready} ready, {in_use} in use){hint}")),
    }
}

fn is_blank(pool: &Pool, tape: Tape) -> bool {
    is_zero_from(pool, tape, if tape.status == Status::Spent { HEADER / 4 } else { 0 })
}
