//! Files of one party's folder. They are as secret as the tables, and so only their owner may read them.

use std::fmt;
use std::fs::{self, DirBuilder, File, OpenOptions, TryLockError};
use std::io::{self, ErrorKind, Write};
use std::os::unix::fs::{DirBuilderExt, FileExt, OpenOptionsExt};
use std::path::{Path, PathBuf};
use std::time::{Duration, Instant};

use crate::Result;

/// A party's folder.
pub struct Folder {
    path: PathBuf,
}

impl Folder {
    /// The folder of a party below the folder of all, made where it is missing.
    pub fn make(dir: &Path, party: &str) -> Result<Folder> {
        let folder = Folder { path: dir.join(party) };
        named(&folder.path, DirBuilder::new().recursive(true).mode(0o700).create(&folder.path))?;
        named(dir, sync_folder(dir).and_then(|()| sync_folder(&dir.join(".."))))?;
        Ok(folder)
    }

    /// The same, but nothing is made.
    pub fn of(dir: &Path, party: &str) -> Folder {
        Folder { path: dir.join(party) }
    }

    /// Waits until no other supervisor is at work here.
    pub fn wait(&self) -> Result<File> {
        let file = self.lock_file()?;
        named(&self.path, file.lock())?;
        Ok(file)
    }

    fn lock_file(&self) -> Result<File> {
        let path = self.path.join("lock");
        named(&path, OpenOptions::new().create(true).append(true).mode(0o600).open(&path))
    }

    /// Waits until no other process works in the folder. The lock goes with the file, however the process ends. One that
    /// was killed may have renamed a file without a sync of the folder: that is made up for before anybody reads it.
    pub fn lock(&self) -> Result<File> {
        let file = self.lock_file()?;
        wait_for(&file)?;
        named(&self.path, sync_folder(&self.path))?;
        Ok(file)
    }

    /// A file's bytes, if there is one.
    pub fn load(&self, name: &str) -> Result<Option<Vec<u8>>> {
        let path = self.path.join(name);
        match fs::read(&path) {
            Err(error) if error.kind() == ErrorKind::NotFound => Ok(None),
            read => Ok(Some(named(&path, read)?)),
        }
    }

    /// Puts a file there as a whole: after a crash it is the old or the new one, after the return it is the new one.
    pub fn save(&self, name: &str, bytes: &[u8]) -> Result<()> {
        let (path, next) = (self.path.join(name), self.path.join(format!("{name}.next")));
        named(&next, write_new(&next, bytes))?;
        named(&path, fs::rename(&next, &path).and_then(|()| sync_folder(&self.path)))
    }

    /// Overwrites a part of a file. A crash may leave it half written: who calls this must be able to do it again.
    pub fn patch(&self, name: &str, at: usize, bytes: &[u8]) -> Result<()> {
        let path = self.path.join(name);
        let file = named(&path, OpenOptions::new().write(true).open(&path))?;
        named(&path, file.write_all_at(bytes, at as u64).and_then(|()| file.sync_all()))
    }

    /// Removes a file.
    pub fn remove(&self, name: &str) -> Result<()> {
        let path = self.path.join(name);
        named(&path, fs::remove_file(&path).and_then(|()| sync_folder(&self.path)))
    }
}

/// Other processes are at work in the folder: this one may be started again.
#[derive(Debug)]
pub struct Busy;

impl fmt::Display for Busy {
    fn fmt(&self, f: &mut fmt::Formatter) -> fmt::Result {
        f.write_str("other processes are at work here")
    }
}

impl std::error::Error for Busy {}

/// Waits for a lock, but not for ever: its holder may wait for a peer, and that one for another lock, in a ring. Nor do all
/// wait for as long.
fn wait_for(file: &File) -> Result<()> {
    let patience = Duration::from_millis(500 + u64::from(std::process::id() % 1000));
    let begun = Instant::now();
    loop {
        match file.try_lock() {
            Ok(()) => return Ok(()),
            Err(TryLockError::Error(error)) => return Err(error.into()),
            Err(TryLockError::WouldBlock) if begun.elapsed() > patience => return Err(Busy.into()),
            Err(TryLockError::WouldBlock) => std::thread::sleep(Duration::from_millis(10)),
        }
    }
}

fn write_new(path: &Path, bytes: &[u8]) -> io::Result<()> {
    let mut file = OpenOptions::new().write(true).create(true).truncate(true).mode(0o600).open(path)?;
    file.write_all(bytes)?;
    file.sync_all()
}

/// A name that is new, changed or gone is on the disk when its folder is.
fn sync_folder(path: &Path) -> io::Result<()> {
    File::open(path)?.sync_all()
}

fn named<T>(path: &Path, done: io::Result<T>) -> Result<T> {
    done.map_err(|error| format!("{}: {error}", path.display()).into())
}
