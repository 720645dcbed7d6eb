//! The dealer: makes matched tapes and lays one half of each into each end's pool.

use std::fs::File;
use std::path::Path;

use yuthsaok::random::{os_words, raw_words};
use yuthsaok::{deal, End, Pool, Refusal, SessionNumber, Slot, Status, Tape, TapeNumber};

use crate::end::{has_begun, load_pool, TAPES};
use crate::state::{word, words};
use crate::store::Folder;
use crate::table::SHAPE;
use crate::Result;

/// The highest tape number that may have been used.
const COUNTER: &str = "last-number";

/// Tapes that are made, of which some may not lie in the pools yet. It is removed when they do.
const DEALING: &str = "dealing";

/// How often raw words are drawn where the last ones gave no Q with an inverse. Already a second time is very rare.
const DRAWS: usize = 20;

/// The folders of the three parties. With each on a machine of its own, each has its own.
struct Folders {
    dealer: Folder,
    /// The blinder's and the solver's: a dealing takes them in this order.
    ends: [Folder; 2],
}

/// One tape: its slot, and the two halves in bytes.
struct Dealt {
    slot: usize,
    halves: [Vec<u8>; 2],
}

/// Deals so many tapes. Where a dealing was cut short that one is brought to its end in place of another.
pub fn run(dir: &Path, count: u32) -> Result<()> {
    let ends = [Folder::make(dir, &End::Blinder.to_string())?, Folder::make(dir, &End::Solver.to_string())?];
    let folders = Folders { dealer: Folder::make(dir, "dealer")?, ends };
    // no end works while its pool is written
    let _locks: [File; 3] = [folders.dealer.lock()?, folders.ends[0].lock()?, folders.ends[1].lock()?];
    if folders.dealer.load(DEALING)?.is_none() {
        let tapes = make(&folders, count)?;
        folders.dealer.save(DEALING, &to_bytes(&tapes))?;
    }
    hand_out(&folders)
}

/// Whether a session still needs a dealing: one was cut short, or no tape is ready at both ends for its first step.
pub fn is_needed(dir: &Path, session: SessionNumber) -> Result<bool> {
    let [blinder, solver] = [End::Blinder, End::Solver].map(|end| Folder::of(dir, &end.to_string()));
    if Folder::of(dir, "dealer").load(DEALING)?.is_some() {
        return Ok(true);
    }
    let is_ready = |tape: Option<Tape>| tape.is_some_and(|tape| tape.status == Status::Ready);
    let (first, second) = (load_pool(&blinder)?, load_pool(&solver)?);
    let has_tape = first.tapes().any(|tape| is_ready(Some(tape)) && is_ready(second.tape(tape.slot)));
    Ok(!has_tape && !has_begun(&solver, session)?)
}

/// Makes tapes in memory. Their numbers are on the disk before: a number that is never dealt does no harm, and one that
/// is dealt twice does.
fn make(folders: &Folders, count: u32) -> Result<Vec<Dealt>> {
    let pools = [load_pool(&folders.ends[0])?, load_pool(&folders.ends[1])?];
    let before = highest(&folders.dealer, &pools)?;
    let after = before.checked_add(count).ok_or("the tape numbers are used up")?;
    folders.dealer.save(COUNTER, &words(&[after]))?;
    let slots = pools[0].slots().max(pools[1].slots()) + count as usize;
    let [mut blinder, mut solver] = pools;
    blinder = grown(blinder, slots)?;
    solver = grown(solver, slots)?;
    (before + 1..=after).map(|number| make_tape(&mut blinder, &mut solver, TapeNumber(number))).collect()
}

fn highest(dealer: &Folder, pools: &[Pool; 2]) -> Result<u32> {
    let counter = dealer.load(COUNTER)?.unwrap_or_else(|| words(&[0]));
    let counter = word(&mut &counter[..]).ok_or("the dealer's counter is damaged")?;
    Ok(pools.iter().flat_map(Pool::tapes).map(|tape| tape.number.0).max().unwrap_or(0).max(counter))
}

fn grown(pool: Pool, slots: usize) -> Result<Pool> {
    let mut bytes = pool.into_bytes();
    bytes.resize(4 * SHAPE.slot_words() * slots, 0);
    Ok(Pool::from_bytes(bytes, SHAPE.slot_words())?)
}

/// Makes one tape, in the first slot that is empty or spent at both ends.
fn make_tape(blinder: &mut Pool, solver: &mut Pool, number: TapeNumber) -> Result<Dealt> {
    let is_free = |tape: Tape| matches!(tape.status, Status::Empty | Status::Spent);
    let slot = blinder.tapes().zip(solver.tapes()).find(|(one, other)| is_free(*one) && is_free(*other));
    let slot = slot.ok_or("no slot is free at both ends")?.0.slot;
    for _ in 0..DRAWS {
        let words = os_words(raw_words(SHAPE.deal_count()))?;
        match deal(blinder, solver, slot, number, SHAPE, &words) {
            Err(Refusal::Dry | Refusal::Singular) => continue,
            answer => answer?,
        };
        let half = |pool: &Pool| pool.slot_bytes(slot).map(<[u8]>::to_vec).ok_or("the pool has no such slot");
        return Ok(Dealt { slot: slot.0, halves: [half(blinder)?, half(solver)?] });
    }
    Err("no words gave a matrix with an inverse: is the random source at fault?".into())
}

/// Lays all halves of the dealing into the pools, and forgets them.
fn hand_out(folders: &Folders) -> Result<()> {
    let bytes = folders.dealer.load(DEALING)?.ok_or("the dealing is gone")?;
    let tapes = from_bytes(&bytes).ok_or("the dealing is damaged")?;
    for (end, folder) in folders.ends.iter().enumerate() {
        let mut pool = load_pool(folder)?;
        for tape in &tapes {
            pool = laid(pool, tape.slot, &tape.halves[end])?;
        }
        folder.save(TAPES, pool.as_bytes())?;
    }
    folders.dealer.remove(DEALING)
}

/// The pool with a half in its slot. A half that lies there already stays as it is: its end may have begun to use it.
fn laid(pool: Pool, slot: usize, half: &[u8]) -> Result<Pool> {
    let slots = pool.slots().max(slot + 1);
    let pool = grown(pool, slots)?;
    let number = word(&mut &half[4..]).map(TapeNumber);
    if pool.tape(Slot(slot)).is_some_and(|tape| Some(tape.number) == number && tape.status != Status::Empty) {
        return Ok(pool);
    }
    let mut bytes = pool.into_bytes();
    bytes[slot * half.len()..][..half.len()].copy_from_slice(half);
    Ok(Pool::from_bytes(bytes, SHAPE.slot_words())?)
}

fn to_bytes(tapes: &[Dealt]) -> Vec<u8> {
    tapes.iter().flat_map(|tape| [words(&[tape.slot as u32]), tape.halves.concat()].concat()).collect()
}

fn from_bytes(mut bytes: &[u8]) -> Option<Vec<Dealt>> {
    let length = 4 * SHAPE.slot_words();
    let mut tapes = Vec::new();
    while !bytes.is_empty() {
        let slot = word(&mut bytes)? as usize;
        let (halves, rest) = bytes.split_at_checked(2 * length)?;
        tapes.push(Dealt { slot, halves: [halves[..length].to_vec(), halves[length..].to_vec()] });
        bytes = rest;
    }
    Some(tapes)
}
