//! The process that serves hands its director to the next. It serves no packet meanwhile, and is the one that serves again
//! unless the other one has said that it does.

use super::snapshot::Snapshot;
use super::timed::Timed;
use super::{layout, PATIENCE, REFUSED, SERVING, STATE};
use crate::system::descriptors;
use std::io::{self, ErrorKind, Read, Write};
use std::net::Shutdown;
use std::os::fd::{AsFd, BorrowedFd};
use std::os::unix::net::UnixStream;

/// The longest answer.
const MOST_ANSWER: usize = 512;

/// Hands a director over, with its device and its listening socket, to the process at the other end. Done, that process
/// serves; an error says why it doesn't and will not.
///
/// The other one's answer decides: once it is sent, that process serves, and after the time to wait is over it can't be
/// sent any more. And the other one must know whether this process serves on or was killed: so it gets the end of a pipe
/// that gives a byte in the first case, and ends without one in the second.
pub fn give(
    stream: UnixStream,
    snapshot: &Snapshot,
    device: BorrowedFd<'_>,
    listener: BorrowedFd<'_>,
) -> Result<(), String> {
    let failed = |error: io::Error| format!("handing over failed: {error}");
    let (word, mut serves_on) = io::pipe().map_err(failed)?;
    let mut stream = Timed::new(stream, PATIENCE).map_err(failed)?;
    let files = [device, listener, word.as_fd()];
    let sent = send(&mut stream, &layout::bytes_of(snapshot), files);
    let answered = sent.map_err(|error| lost(&error)).and_then(|()| answer(&mut stream));
    answered.inspect_err(|_| {
        // one byte always has room in a new pipe, and nobody may be left to read it
        let _ = serves_on.write(b"!");
    })
}

/// The number of bytes, with the files, and the bytes.
fn send(stream: &mut Timed, bytes: &[u8], files: [BorrowedFd<'_>; 3]) -> io::Result<()> {
    let line = format!("{STATE}{}\n", bytes.len());
    stream.stream.set_write_timeout(stream.left()?)?;
    let sent = descriptors::send(&stream.stream, line.as_bytes(), files)?;
    stream.write_all(&line.as_bytes()[sent..])?;
    stream.write_all(bytes)
}

/// Waits for the answer.
fn answer(stream: &mut Timed) -> Result<(), String> {
    let mut line = Vec::new();
    let read = stream.read_line(&mut line, MOST_ANSWER);
    if read.is_err() {
        // nothing can be said after this, and what was said before is still there
        let closed = stream.stream.shutdown(Shutdown::Read);
        closed
            .and_then(|()| (&stream.stream).take(MOST_ANSWER as u64).read_to_end(&mut line))
            .map_err(|error| lost(&error))?;
    }
    let said = String::from_utf8_lossy(&line);
    match (said.trim_end(), said.strip_prefix(REFUSED), read) {
        (SERVING, _, _) => Ok(()),
        (_, Some(reason), _) => Err(format!("the other process refuses: {}", reason.trim_end())),
        (_, None, Err(error)) => Err(lost(&error)),
        ("", ..) => Err("the other process has gone without a word".into()),
        (said, ..) => Err(format!("the other process says {said:?}")),
    }
}

fn is_late(error: &io::Error) -> bool {
    matches!(error.kind(), ErrorKind::WouldBlock | ErrorKind::TimedOut)
}

fn lost(error: &io::Error) -> String {
    match is_late(error) {
        true => format!("the other process has not answered within {} s", PATIENCE.as_secs()),
        false => format!("the other process has gone: {error}"),
    }
}
