//! The next process takes the director over from the one that serves.

use super::layout::{self, MOST_BYTES};
use super::request::Request;
use super::snapshot::Snapshot;
use super::timed::Timed;
use super::{PATIENCE, REFUSED, SERVING, STATE};
use crate::system::descriptors;
use std::fs::File;
use std::io::{self, ErrorKind, Read, Write};
use std::os::fd::OwnedFd;
use std::os::unix::net::{UnixListener, UnixStream};
use std::path::Path;

/// The longest first line of what comes.
const MOST_LINE: usize = 1_024;

/// What was handed over. The other process waits to hear who serves.
#[derive(Debug)]
pub struct Taken {
    /// The director's device.
    pub device: OwnedFd,
    /// The control socket.
    pub listener: UnixListener,
    /// The director, not checked yet.
    pub snapshot: Snapshot,
    /// The process that served until now.
    pub giver: Giver,
}

/// Asks the process that serves at that socket, and takes what it hands over. One of an earlier layout refuses before it
/// stops anything, and is asked again.
pub fn take(socket: &Path, request: Request) -> Result<Taken, String> {
    let answer = ask(socket, request)?;
    let answer = match answer.refusal().and_then(|reason| request.earlier(reason)) {
        Some(earlier) => ask(socket, earlier)?,
        None => answer,
    };
    receive(answer).map_err(|error| nothing(socket, &error))?
}

fn ask(socket: &Path, request: Request) -> Result<Answer, String> {
    let stream = UnixStream::connect(socket)
        .map_err(|error| format!("no director serves at {}: {error}", socket.display()))?;
    // it may first have to wait for the one that takes over before
    let answer = Timed::new(stream, 2 * PATIENCE).and_then(|stream| Answer::to(request, stream));
    answer.map_err(|error| nothing(socket, &error))
}

fn nothing(socket: &Path, error: &io::Error) -> String {
    format!("the director at {} hands nothing over: {error}", socket.display())
}

/// The first line of what comes, and the files that came with it.
struct Answer {
    stream: Timed,
    line: String,
    files: Vec<OwnedFd>,
}

impl Answer {
    fn to(request: Request, mut stream: Timed) -> io::Result<Answer> {
        // turned away, it may be gone already, and yet have said why
        let _ = stream.write(request.line().as_bytes());
        stream.stream.set_read_timeout(stream.left()?)?;
        let mut first = [0];
        let (length, files) = match descriptors::receive(&stream.stream, &mut first) {
            // gone before it has read the request
            Err(error) if error.kind() == ErrorKind::ConnectionReset => (0, Vec::new()),
            received => received?,
        };
        let mut line = first[..length].to_vec();
        stream.read_line(&mut line, MOST_LINE)?;
        let line = String::from_utf8_lossy(&line).trim_end().to_string();
        Ok(Answer { stream, line, files })
    }

    /// Why the request is refused.
    fn refusal(&self) -> Option<&str> {
        self.line.strip_prefix("error: ")
    }

    /// How many bytes follow; an error says why none do.
    fn length(&self) -> io::Result<usize> {
        let number = self.line.strip_prefix(STATE).and_then(|number| number.parse().ok());
        number.ok_or_else(|| {
            io::Error::other(match (self.line.as_str(), self.refusal()) {
                (_, Some(reason)) => reason.to_string(),
                ("", _) => "it has gone, and another process may serve by now".into(),
                (line, _) => format!("it says {line:?}"),
            })
        })
    }
}

fn receive(answer: Answer) -> io::Result<Result<Taken, String>> {
    let mut bytes = vec![0; MOST_BYTES.min(answer.length()?)];
    let Answer { mut stream, files, .. } = answer;
    stream.read_exact(&mut bytes)?;
    let [device, listener, word] = files
        .try_into()
        .map_err(|files: Vec<_>| io::Error::other(format!("{} files came with it", files.len())))?;
    let giver = Giver { stream: stream.stream, word: File::from(word) };
    Ok(match layout::read(&bytes) {
        Ok(snapshot) => Ok(Taken { device, listener: listener.into(), snapshot, giver }),
        Err(reason) => Err(giver.refuse(&reason)),
    })
}

/// The process that served until now, and still does unless it is told otherwise.
#[derive(Debug)]
pub struct Giver {
    stream: UnixStream,
    /// Gives a byte once that process serves on; ends without one if it was killed before.
    word: File,
}

impl Giver {
    /// Tells it that it has to serve on, and why; gives the reason back.
    pub fn refuse(mut self, reason: &str) -> String {
        // gone or not, it is not this process that serves
        let _ = self.stream.write(format!("{REFUSED}{reason}\n").as_bytes());
        reason.to_string()
    }

    /// Tells it that this process serves from now on. An error means that it serves on itself.
    pub fn serve(mut self) -> Result<(), String> {
        let line = format!("{SERVING}\n");
        if self.stream.write(line.as_bytes()).is_ok_and(|length| length == line.len()) {
            return Ok(());
        }
        // it takes no more words: was it killed, nobody serves but this process
        match self.word.read_to_end(&mut Vec::new()) {
            Ok(0) => Ok(()),
            _ => Err("the other process waited no longer, and serves on".into()),
        }
    }
}
