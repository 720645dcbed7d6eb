//! The socket to the other end, which is the process's standard input.

use std::io::{self, BufRead, BufReader, ErrorKind, Read, Write};
use std::net::Shutdown;
use std::os::fd::AsFd;
use std::os::unix::net::UnixStream;
use std::time::Duration;

use yuthsaok::MOST_LINE;

use crate::Result;

/// An end that says nothing for so long counts as gone: the engine has no clock.
const PATIENCE: Duration = Duration::from_secs(60);

/// Lines both ways.
pub struct Channel {
    socket: UnixStream,
    reader: BufReader<UnixStream>,
}

impl Channel {
    /// The socket that the process was started with.
    pub fn of_stdin() -> Result<Channel> {
        let socket = UnixStream::from(io::stdin().as_fd().try_clone_to_owned()?);
        socket.set_read_timeout(Some(PATIENCE))?;
        let reader = BufReader::new(socket.try_clone()?);
        Ok(Channel { socket, reader })
    }

    /// Sends a line. That the other end is gone shows when the next line is awaited: one that it sent before may still
    /// be there.
    pub fn send(&mut self, line: &[u8]) -> Result<()> {
        match self.socket.write_all(line) {
            Err(error) if !is_gone(&error) => Err(format!("nothing can be sent: {error}").into()),
            _ => Ok(()),
        }
    }

    /// Says that nothing more will be sent.
    pub fn close(&self) {
        // it fails where the other end is gone, who then does not ask
        let _ = self.socket.shutdown(Shutdown::Write);
    }

    /// The next line with its byte 10; nothing where the other end has closed or is gone, maybe in the midst of a line.
    pub fn line(&mut self) -> Result<Option<Vec<u8>>> {
        let mut line = Vec::new();
        match self.reader.by_ref().take(MOST_LINE as u64).read_until(b'\n', &mut line) {
            Err(error) if !is_gone(&error) => return Err(format!("nothing can be received: {error}").into()),
            _ => (),
        }
        if line.len() == MOST_LINE && !line.ends_with(b"\n") {
            return Err("the other end sent a line that is too long".into());
        }
        Ok(Some(line).filter(|line| line.ends_with(b"\n")))
    }
}

fn is_gone(error: &io::Error) -> bool {
    // a read that lasts too long gives WouldBlock
    matches!(error.kind(), ErrorKind::BrokenPipe | ErrorKind::ConnectionReset | ErrorKind::WouldBlock)
}
