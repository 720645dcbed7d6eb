//! Files that appear whole or not at all.

use std::ffi::OsString;
use std::fs::{self, File, OpenOptions};
use std::io::{self, Write};
use std::os::unix::fs::{MetadataExt, OpenOptionsExt};
use std::path::{Path, PathBuf};

/// The digits in the middle of a name beside.
const MIDDLE: usize = 16;

/// A complete file beside its place. It is removed where it is not moved there.
pub struct Staged<'a> {
    path: &'a Path,
    beside: PathBuf,
}

impl<'a> Staged<'a> {
    pub fn write(path: &'a Path, bytes: &[u8]) -> io::Result<Staged<'a>> {
        let mut name = OsString::from(".");
        name.push(path.file_name().ok_or(io::ErrorKind::InvalidFilename)?);
        name.push(format!(".{:08x}{:08x}.part", std::process::id(), yuthsaok::random::os_words(1)?[0]));
        let beside = path.with_file_name(name);
        let mut file = OpenOptions::new().write(true).create_new(true).mode(0o600).open(&beside)?;
        let staged = Staged { path, beside };
        file.write_all(bytes)?;
        file.sync_all()?;
        Ok(staged)
    }

    /// Gives it its place where there is none yet.
    pub fn link(&self) -> io::Result<()> {
        fs::hard_link(&self.beside, self.path)
    }

    /// Moves it to its place, over a file that is there.
    pub fn place(&self) -> io::Result<()> {
        fs::rename(&self.beside, self.path)
    }
}

impl Drop for Staged<'_> {
    fn drop(&mut self) {
        // It is gone where it was placed.
        let _ = fs::remove_file(&self.beside);
    }
}

/// Removes what dealers that were killed have left beside a file. None is at work while the numbers are locked.
pub fn sweep(path: &Path) -> io::Result<()> {
    let mut before = OsString::from(".");
    before.push(path.file_name().ok_or(io::ErrorKind::InvalidFilename)?);
    before.push(".");
    for entry in fs::read_dir(folder(path))? {
        let entry = entry?;
        let (name, before) = (entry.file_name(), before.as_encoded_bytes());
        let middle = name.as_encoded_bytes().strip_prefix(before).and_then(|rest| rest.strip_suffix(b".part"));
        if middle.is_some_and(|middle| middle.len() == MIDDLE && middle.iter().all(u8::is_ascii_hexdigit)) {
            fs::remove_file(entry.path())?;
        }
    }
    Ok(())
}

fn folder(path: &Path) -> &Path {
    path.parent().filter(|folder| !folder.as_os_str().is_empty()).unwrap_or(Path::new("."))
}

/// The folder that a file is in or will be in.
pub fn true_folder(path: &Path) -> io::Result<PathBuf> {
    fs::canonicalize(folder(path))
}

pub fn sync_folder(path: &Path) -> io::Result<()> {
    File::open(folder(path))?.sync_all()
}

/// Whether two names are those of one file, by way of links too. A file that is not there yet is known by its folder and its name.
pub fn are_one(one: &Path, other: &Path) -> io::Result<bool> {
    if let (Ok(a), Ok(b)) = (fs::metadata(one), fs::metadata(other)) {
        return Ok((a.dev(), a.ino()) == (b.dev(), b.ino()));
    }
    Ok(one.file_name() == other.file_name() && true_folder(one)? == true_folder(other)?)
}
