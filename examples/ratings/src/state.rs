//! What an end's steps have left.

use yuthsaok::{Pool, Session, Slot, Step};

use crate::store::Folder;
use crate::table::SHAPE;
use crate::Result;

/// The name of the file.
const FILE: &str = "session";

/// The first word of the file: the form that follows.
const FORM: u32 = 1;

/// How far a session is.
#[derive(Clone, Copy, PartialEq, Eq)]
pub enum Standing {
    /// A line is awaited.
    Open = 1,
    /// The last step was taken.
    Done = 2,
    /// The joint table has no inverse.
    Singular = 3,
    /// It was given up for another session.
    Dropped = 4,
}

/// All of it goes into one file, so that no part is ever older than the rest.
pub struct State {
    /// How far it is.
    pub standing: Standing,
    /// The session, with the blinder's scratch.
    pub session: Session,
    /// Where its tape lies.
    pub slot: Slot,
    /// That slot, as the latest step left it.
    pub tape: Vec<u8>,
    /// What the latest step sends; after a crash it is sent again.
    pub line: Vec<u8>,
    /// z, at the blinder's end.
    pub result: Vec<u32>,
}

impl State {
    /// What a step has left in memory.
    pub fn new(session: Session, pool: &Pool, slot: Slot, step: Step) -> Result<State> {
        let standing = if session.is_open() { Standing::Open } else { Standing::Done };
        let tape = pool.slot_bytes(slot).ok_or("the pool has no such slot")?.to_vec();
        Ok(State { standing, session, slot, tape, line: step.line, result: step.result })
    }

    /// Reads an end's file, if there is one.
    pub fn load(folder: &Folder) -> Result<Option<State>> {
        match folder.load(FILE)? {
            None => Ok(None),
            Some(bytes) => Ok(Some(State::from_bytes(&bytes).ok_or("the session's file is damaged")?)),
        }
    }

    /// Brings it to the disk.
    pub fn save(&self, folder: &Folder) -> Result<()> {
        folder.save(FILE, &self.to_bytes())
    }

    /// Form, standing and slot, then four parts with their lengths in front.
    fn to_bytes(&self) -> Vec<u8> {
        let mut bytes = words(&[FORM, self.standing as u32, self.slot.0 as u32]);
        for part in [&self.session.to_bytes(), &self.tape, &self.line, &words(&self.result)] {
            bytes.extend(words(&[part.len() as u32]));
            bytes.extend(part);
        }
        bytes
    }

    fn from_bytes(mut bytes: &[u8]) -> Option<State> {
        let from = &mut bytes;
        let [form, standing, slot] = [word(from)?, word(from)?, word(from)?];
        let [session, tape, line, result] = [part(from)?, part(from)?, part(from)?, part(from)?];
        let all = [Standing::Open, Standing::Done, Standing::Singular, Standing::Dropped];
        let standing = all.into_iter().find(|one| *one as u32 == standing)?;
        let is_whole = form == FORM && from.is_empty() && tape.len() == 4 * SHAPE.slot_words();
        let (tape, line) = (tape.to_vec(), line.to_vec());
        let result =
            result.chunks_exact(4).map(|word| u32::from_le_bytes(word.try_into().unwrap_or_default())).collect();
        let session = Session::from_bytes(session).ok()?;
        is_whole.then_some(State { standing, session, slot: Slot(slot as usize), tape, line, result })
    }
}

/// Words in bytes, the lowest byte first.
pub fn words(words: &[u32]) -> Vec<u8> {
    words.iter().flat_map(|word| word.to_le_bytes()).collect()
}

/// The word in front; what is behind it is left.
pub fn word(bytes: &mut &[u8]) -> Option<u32> {
    let (word, rest) = bytes.split_first_chunk()?;
    *bytes = rest;
    Some(u32::from_le_bytes(*word))
}

fn part<'a>(bytes: &mut &'a [u8]) -> Option<&'a [u8]> {
    let length = word(bytes)? as usize;
    let (part, rest) = bytes.split_at_checked(length)?;
    *bytes = rest;
    Some(part)
}
