//! The file of the next unused tape number. It is locked until the program ends, and moved on and synced before a tape is made: a crash may
//! skip numbers, but gives none twice.

use std::fs::{self, File, OpenOptions};
use std::io::{self, ErrorKind, Read};
use std::os::unix::fs::FileExt;
use std::path::Path;

use crate::files::{sync_folder, Staged};
use crate::Failure;

pub struct Ledger<'a> {
    path: &'a Path,
    file: File,
}

impl Ledger<'_> {
    /// Opens the file, and waits for another dealer who has it.
    pub fn lock(path: &Path) -> Result<Ledger<'_>, Failure> {
        match open(path) {
            Ok(file) => Ok(Ledger { path, file }),
            Err(error) => Err(Failure::Failed(format!("the numbers in {} can't be used: {error}", path.display()))),
        }
    }

    /// The first of so many numbers that nobody else is given.
    pub fn take(&mut self, count: u32) -> Result<u32, Failure> {
        let mut text = String::new();
        let read = self.file.read_to_string(&mut text);
        let is_whole = |next: &u64| [format!("{next}\n"), padded(*next)].contains(&text);
        let next = text.trim_end().parse::<u64>().ok().filter(|next| read.is_ok() && *next > 0 && is_whole(next));
        let Some(next) = next else {
            return self.failed("it must hold the next unused tape number, from 1 up, and the end of the line");
        };
        let after = next.saturating_add(count.into());
        let Some(first) = u32::try_from(next).ok().filter(|_| after <= 1 << 32) else {
            return self.failed(&format!("tape numbers end with 4294967295, and from {next} on there are not {count} left"));
        };
        match self.file.write_all_at(padded(after).as_bytes(), 0).and_then(|()| self.file.sync_all()) {
            Ok(()) => Ok(first),
            Err(error) => self.failed(&error.to_string()),
        }
    }

    fn failed<T>(&self, why: &str) -> Result<T, Failure> {
        Err(Failure::Failed(format!("the numbers in {} can't be used: {why}", self.path.display())))
    }
}

/// A number with all its digits, so that a write that is cut off leaves a number between the old and the new, or none.
fn padded(number: u64) -> String {
    format!("{number:010}\n")
}

/// Opens the file under its lock. Where it is missing it is made beside and linked to its place: nobody ever finds it without a number.
fn open(path: &Path) -> io::Result<File> {
    if !fs::exists(path)? {
        let made = Staged::write(path, padded(1).as_bytes())?;
        match made.link() {
            Err(error) if error.kind() != ErrorKind::AlreadyExists => return Err(error),
            _ => sync_folder(path)?,
        }
    }
    let file = OpenOptions::new().read(true).write(true).open(path)?;
    file.lock()?;
    Ok(file)
}
