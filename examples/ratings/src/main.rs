//! Two makers of puzzles work out joint difficulty ratings, and neither shows its table. README.md says more.

#![forbid(unsafe_code)]

mod channel;
mod dealer;
mod end;
mod state;
mod store;
mod supervisor;
mod table;

use std::io::Write;
use std::path::Path;
use std::process::ExitCode;

use yuthsaok::{End, SessionNumber};

use crate::end::Ending;
use crate::store::Busy;

/// Whatever fails is told in a sentence, and ends the process.
pub type Result<T> = std::result::Result<T, Box<dyn std::error::Error>>;

/// How the processes end.
pub mod status {
    /// The session is done.
    pub const DONE: u8 = 0;
    /// It cannot go on; nothing was changed since the last step.
    pub const FAILED: u8 = 1;
    /// The command line is none.
    pub const USAGE: u8 = 2;
    /// The other end went away before the session's end: start both again.
    pub const PEER_LOST: u8 = 3;
    /// The joint table has no inverse (an end's status; `run` then fails).
    pub const SINGULAR: u8 = 4;
}

const USAGE: &str = "usage: ratings deal DIR COUNT
       ratings blinder DIR TABLE [SESSION]
       ratings solver DIR TABLE [SESSION]
       ratings run DIR BLINDERTABLE SOLVERTABLE [SESSION]";

const NO_RATINGS: &str = "the joint table has no inverse: no ratings";

fn main() -> ExitCode {
    let arguments: Vec<String> = std::env::args().skip(1).collect();
    let words: Vec<&str> = arguments.iter().map(String::as_str).collect();
    let done = match words[..] {
        ["deal", dir, count] => deal(dir, count),
        ["blinder", dir, table] => play(End::Blinder, dir, table, "1"),
        ["blinder", dir, table, session] => play(End::Blinder, dir, table, session),
        ["solver", dir, table] => play(End::Solver, dir, table, "1"),
        ["solver", dir, table, session] => play(End::Solver, dir, table, session),
        ["run", dir, blinder, solver] => run(dir, [blinder, solver], "1"),
        ["run", dir, blinder, solver, session] => run(dir, [blinder, solver], session),
        _ => {
            eprintln!("{USAGE}");
            Ok(status::USAGE)
        }
    };
    ExitCode::from(done.unwrap_or_else(|fault| {
        eprintln!("ratings {}: {fault}", words[0]);
        if fault.is::<Busy>() {
            status::PEER_LOST
        } else {
            status::FAILED
        }
    }))
}

fn deal(dir: &str, count: &str) -> Result<u8> {
    dealer::run(Path::new(dir), number(count, 1000)?)?;
    Ok(status::DONE)
}

fn play(role: End, dir: &str, table: &str, session: &str) -> Result<u8> {
    let session = SessionNumber(number(session, u32::MAX)?);
    let (sentence, status) = match end::run(role, Path::new(dir), Path::new(table), session)? {
        Ending::Done(sentence) => (sentence, status::DONE),
        Ending::Singular => (Some(NO_RATINGS.into()), status::SINGULAR),
        Ending::PeerLost => (None, status::PEER_LOST),
    };
    say(sentence)?;
    Ok(status)
}

fn run(dir: &str, tables: [&str; 2], session: &str) -> Result<u8> {
    supervisor::run(dir, tables, SessionNumber(number(session, u32::MAX)?))
}

/// Prints a sentence, in one piece.
pub fn say(sentence: Option<String>) -> Result<()> {
    if let Some(sentence) = sentence {
        std::io::stdout().write_all(format!("{sentence}\n").as_bytes())?;
    }
    Ok(())
}

fn number(word: &str, most: u32) -> Result<u32> {
    let number = word.parse().ok().filter(|number| (1..=most).contains(number));
    number.ok_or_else(|| format!("{word} is no number from 1 to {most}").into())
}
