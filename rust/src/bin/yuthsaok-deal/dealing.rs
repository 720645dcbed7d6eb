//! The making of two matched files.

use std::fs;
use std::path::{Path, PathBuf};

use yuthsaok::random::{os_words, raw_words};
use yuthsaok::{deal, Pool, Refusal, Shape, Slot, TapeNumber};

use crate::arguments::{Numbers, Order};
use crate::files::{are_one, sweep, sync_folder, true_folder, Staged};
use crate::ledger::Ledger;
use crate::{tapes, Failure};

/// How often fresh words are tried for one tape. Modulo 2, seven matrices of ten have no inverse; so many in a row do not occur.
const TRIES: usize = 256;

/// Makes both files, and says what was made.
pub fn fill(order: &Order) -> Result<String, Failure> {
    check_names(order)?;
    match &order.numbers {
        Numbers::From(first) => fill_from(order, || Ok(*first)),
        Numbers::File(path) => {
            // Held to the end, so that another dealer looks at the files when these are in place.
            let mut ledger = Ledger::lock(path)?;
            for file in &order.files {
                sweep(file).map_err(|error| Failure::Failed(format!("the folder of {} can't be used: {error}", file.display())))?;
            }
            fill_from(order, || ledger.take(order.count))
        }
    }
}

/// The first number is taken where all else is in order.
fn fill_from(order: &Order, take: impl FnOnce() -> Result<u32, Failure>) -> Result<String, Failure> {
    let mut replaced = String::new();
    for (path, other) in order.files.iter().zip(order.files.iter().rev()) {
        if tapes::is_used_up(path, lone(other)).map_err(Failure::Failed)? {
            replaced += &format!("{} had no unused tape and was written over\n", path.display());
        }
    }
    let first = take()?;
    let pools = deal_all(order, first)?;
    put(&order.files, &pools)?;
    Ok(format!("{}\n{replaced}", made(order, first)))
}

/// What else to say of a file with tapes that are not spent.
fn lone(other: &Path) -> &'static str {
    match fs::exists(other) {
        Ok(false) => "; the other file is not there: if a dealing was cut off, remove this one and deal again",
        _ => "",
    }
}

/// One file under two names would lose a half of every tape, or the numbers.
fn check_names(order: &Order) -> Result<(), Failure> {
    let mut names: Vec<&Path> = order.files.iter().map(PathBuf::as_path).collect();
    if let Numbers::File(path) = &order.numbers {
        names.push(path);
    }
    let unread = |path: &Path, error| Failure::Failed(format!("the folder of {} can't be read: {error}", path.display()));
    for (i, one) in names.iter().enumerate() {
        true_folder(one).map_err(|error| unread(one, error))?;
        for other in &names[..i] {
            if are_one(one, other).map_err(|error| unread(one, error))? {
                return Err(Failure::Usage(format!("{} and {} are one file", other.display(), one.display())));
            }
        }
    }
    Ok(())
}

fn deal_all(order: &Order, first: u32) -> Result<[Pool; 2], Failure> {
    let slots = order.count as usize;
    let mut pools = [(); 2].map(|()| Pool::new(order.shape.slot_words(), slots));
    for (index, number) in (first..=first + (order.count - 1)).enumerate() {
        deal_one(&mut pools, Slot(index), TapeNumber(number), order.shape)?;
    }
    Ok(pools)
}

fn deal_one([one, other]: &mut [Pool; 2], slot: Slot, number: TapeNumber, shape: Shape) -> Result<(), Failure> {
    for _ in 0..TRIES {
        let words = os_words(raw_words(shape.deal_count()))
            .map_err(|error| Failure::Failed(format!("the system's random source can't be read: {error}")))?;
        match deal(one, other, slot, number, shape, &words) {
            Ok(_) => return Ok(()),
            Err(Refusal::Dry | Refusal::Singular) => (),
            Err(refusal) => return Err(Failure::Failed(format!("tape {number} was {refusal}"))),
        }
    }
    Err(Failure::Failed(format!("tape {number} can't be made: {TRIES} runs of random words were of no use, which good ones are not")))
}

/// Both files are complete before the first is in its place.
fn put([one, other]: &[PathBuf; 2], [first, second]: &[Pool; 2]) -> Result<(), Failure> {
    let failed = |path: &Path, error| Failure::Failed(format!("{} can't be written: {error}", path.display()));
    let first = Staged::write(one, first.as_bytes()).map_err(|error| failed(one, error))?;
    let second = Staged::write(other, second.as_bytes()).map_err(|error| failed(other, error))?;
    first.place().map_err(|error| failed(one, error))?;
    if let Err(error) = second.place() {
        // Halves without their other halves are of no use, and would stand in the way of the next dealing.
        let _ = fs::remove_file(one);
        return Err(failed(other, error));
    }
    sync_folder(one).map_err(|error| failed(one, error))?;
    sync_folder(other).map_err(|error| failed(other, error))
}

fn made(order: &Order, first: u32) -> String {
    let Order { shape, count, files: [one, other], .. } = order;
    let (one, other, size) = (one.display(), other.display(), shape.slot_words());
    match count {
        1 => format!("1 tape of {shape}, number {first}, in {one} and {other}; {size} words a slot"),
        _ => format!("{count} tapes of {shape}, numbers {first} to {}, in {one} and {other}; {size} words a slot", first + (count - 1)),
    }
}
