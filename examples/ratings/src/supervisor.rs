//! Starts the dealer and both ends as processes on one machine, and starts them again where one was killed.

use std::os::fd::OwnedFd;
use std::os::unix::net::UnixStream;
use std::os::unix::process::ExitStatusExt;
use std::path::Path;
use std::process::{Child, Command, Stdio};

use yuthsaok::{End, SessionNumber};

use crate::store::Folder;
use crate::{dealer, say, status, Result};

/// How often processes are started before the supervisor gives up.
const STARTS: usize = 10;

/// How many tapes are dealt where there are none.
const TAPES: &str = "4";

/// The statuses that occur where an end is killed. Whatever else goes wrong would go wrong again.
const MENDED: [u8; 3] = [status::DONE, status::PEER_LOST, status::SINGULAR];

/// How a child ended, and what it printed.
struct Ended {
    status: u8,
    sentence: String,
}

/// Plays a whole session with tables of the blinder and of the solver, and prints the ratings.
pub fn run(dir: &str, tables: [&str; 2], session: SessionNumber) -> Result<u8> {
    // two of these would start their ends again and again in each other's way
    let _alone = Folder::make(Path::new(dir), "")?.wait()?;
    have_tapes(dir, session)?;
    for _ in 0..STARTS {
        let [blinder, solver] = both_ends(dir, tables, session)?;
        match [blinder.status, solver.status] {
            [status::DONE, status::DONE] => {
                say(Some(blinder.sentence))?;
                return Ok(status::DONE);
            }
            [status::SINGULAR, status::SINGULAR] => return Err(blinder.sentence.into()),
            // one that was killed or lost its peer is mended by another start
            both if both.iter().all(|status| MENDED.contains(status)) => (),
            _ => return Ok(status::FAILED),
        }
    }
    Err(format!("the ends were started {STARTS} times").into())
}

fn have_tapes(dir: &str, session: SessionNumber) -> Result<()> {
    for _ in 0..STARTS {
        if !dealer::is_needed(Path::new(dir), session)? {
            return Ok(());
        }
        let child = start(&["deal", dir, TAPES], Stdio::null())?;
        if ended(child, "the dealer")?.status == status::FAILED {
            return Err("there are no tapes".into());
        }
    }
    Err(format!("the dealer was started {STARTS} times").into())
}

/// Runs both ends over a new pair of sockets.
fn both_ends(dir: &str, tables: [&str; 2], session: SessionNumber) -> Result<[Ended; 2]> {
    let (one, other) = UnixStream::pair()?;
    let session = session.to_string();
    let names = [End::Blinder.to_string(), End::Solver.to_string()];
    let blinder = start(&[&names[0], dir, tables[0], &session], OwnedFd::from(one).into())?;
    let solver = start(&[&names[1], dir, tables[1], &session], OwnedFd::from(other).into())?;
    Ok([ended(blinder, "the blinder")?, ended(solver, "the solver")?])
}

/// Starts this program in another role. The socket is closed here when this returns: while somebody holds it open the
/// peer waits.
fn start(arguments: &[&str], input: Stdio) -> Result<Child> {
    let program = std::env::current_exe()?;
    Ok(Command::new(program).args(arguments).stdin(input).stdout(Stdio::piped()).spawn()?)
}

/// Waits for a child. One that a signal killed counts as one that lost its peer: it has to be started again.
fn ended(child: Child, name: &str) -> Result<Ended> {
    let output = child.wait_with_output()?;
    if let Some(signal) = output.status.signal() {
        eprintln!("ratings run: {name} was killed by signal {signal}");
    }
    let status = output.status.code().map_or(status::PEER_LOST, |code| u8::try_from(code).unwrap_or(status::FAILED));
    Ok(Ended { status, sentence: String::from_utf8_lossy(&output.stdout).trim_end().to_string() })
}
