//! One client of the control socket: it says one command and reads the answer.

use crate::control::commands::Text;
use crate::system::Waited;
use std::io::{ErrorKind, Read, Write};
use std::os::unix::net::UnixStream;
use std::time::{Duration, Instant};

/// The longest command, without its line end: the weights of 64 servers, each named by its address, are shorter.
pub const MOST_COMMAND: usize = 2_048;

/// A client must have said its command within this time, and then go on reading its answer: so long it may take nothing of it.
pub const PATIENCE: Duration = Duration::from_secs(5);

/// How far a client has come.
#[derive(Debug, PartialEq, Eq)]
enum Stage {
    Asking,
    Answering,
    /// It gets the status again when the change after `seen` makes it other than `shown`.
    Watching {
        seen: u64,
        shown: String,
    },
    Over,
}

/// A client's connection. No call on it waits.
#[derive(Debug)]
pub struct Connection {
    stream: UnixStream,
    user: u32,
    stage: Stage,
    input: Vec<u8>,
    input_ended: bool,
    output: Vec<u8>,
    /// What comes after it, and is made when the director is lent to the packet thread again.
    rest: Option<Text>,
    deadline: Instant,
}

impl Connection {
    /// A client of that user that has connected now, by a stream that doesn't block.
    pub fn new(stream: UnixStream, user: u32, now: Instant) -> Connection {
        Connection {
            stream,
            user,
            stage: Stage::Asking,
            input: Vec::new(),
            input_ended: false,
            output: Vec::new(),
            rest: None,
            deadline: now + PATIENCE,
        }
    }

    /// Whose it is.
    pub fn user(&self) -> u32 {
        self.user
    }

    /// What it is connected by: it says no more commands, but has something else to talk about.
    pub fn into_stream(self) -> UnixStream {
        self.stream
    }

    /// Whether it has its answer, and only has to read it.
    pub fn is_answered(&self) -> bool {
        self.stage == Stage::Answering
    }

    /// What to wait for.
    pub fn waited(&self) -> Waited {
        let reads = match self.stage {
            Stage::Asking => !self.has_command(),
            Stage::Watching { .. } => true,
            Stage::Answering | Stage::Over => false,
        };
        Waited::new(&self.stream, reads, !self.output.is_empty() || self.rest.is_some())
    }

    /// Whether a whole command is there, and not answered yet.
    pub fn has_command(&self) -> bool {
        let whole = self.input_ended || self.input.len() > MOST_COMMAND;
        self.stage == Stage::Asking && (whole || self.input.contains(&b'\n'))
    }

    /// The command.
    pub fn command(&self) -> Result<String, String> {
        let line = self.input.split(|&byte| byte == b'\n').next().unwrap_or_default();
        match line.len() {
            0..=MOST_COMMAND => Ok(String::from_utf8_lossy(line).into_owned()),
            _ => Err(format!("expected a command of at most {MOST_COMMAND} bytes")),
        }
    }

    /// Answers the command; the connection ends when the answer is read.
    pub fn answer(&mut self, text: &str, now: Instant) {
        self.stage = Stage::Answering;
        self.send(text, now);
    }

    /// Answers the command by a text that may be made later; it comes after these words.
    pub fn answer_by(&mut self, words: &str, text: Text, now: Instant) {
        match text {
            Text::Made(text) => self.answer(&format!("{words}{text}"), now),
            text => {
                self.stage = Stage::Answering;
                self.output.extend_from_slice(words.as_bytes());
                self.deadline = now + PATIENCE;
                self.rest = Some(text);
            }
        }
    }

    /// Answers a watch, and remembers what was shown.
    pub fn watch(&mut self, text: &str, seen: u64, shown: &str, now: Instant) {
        self.stage = Stage::Watching { seen, shown: shown.to_string() };
        self.send(text, now);
    }

    /// Whether it watches.
    pub fn is_watching(&self) -> bool {
        matches!(self.stage, Stage::Watching { .. })
    }

    /// Whether it watches, and has read all that was sent.
    pub fn awaits_change(&self) -> bool {
        self.is_watching() && self.output.is_empty()
    }

    /// Whether it awaits a change, and may not have seen the latest.
    pub fn is_behind(&self, latest: u64) -> bool {
        self.awaits_change() && matches!(self.stage, Stage::Watching { seen, .. } if seen != latest)
    }

    /// Whether a watch has shown just that.
    pub fn has_shown(&self, status: &str) -> bool {
        matches!(&self.stage, Stage::Watching { shown, .. } if shown == status)
    }

    /// When it must have come further. A watch that has read all may wait as long as it likes, and it isn't a client's fault
    /// that its command is answered late.
    pub fn deadline(&self) -> Option<Instant> {
        let waits = self.awaits_change() || self.has_command();
        (!waits).then_some(self.deadline)
    }

    /// Whether it is to be closed.
    pub fn is_over(&self, now: Instant) -> bool {
        self.stage == Stage::Over || self.deadline().is_some_and(|deadline| deadline <= now)
    }

    /// Reads and writes what is possible now.
    pub fn exchange(&mut self, now: Instant) {
        if matches!(self.stage, Stage::Asking | Stage::Watching { .. }) {
            self.receive();
        }
        self.write(now);
    }

    fn send(&mut self, text: &str, now: Instant) {
        self.output.extend_from_slice(text.as_bytes());
        self.deadline = now + PATIENCE;
        self.write(now);
    }

    fn receive(&mut self) {
        let mut bytes = [0; MOST_COMMAND + 1];
        let room = bytes.len().saturating_sub(self.input.len());
        let watching = self.is_watching();
        match self.stream.read(&mut bytes[..if watching { 1 } else { room }]) {
            // a watcher has nothing more to say: it has gone, or is no watcher
            Ok(_) if watching => self.stage = Stage::Over,
            Ok(0) if self.input.is_empty() => self.stage = Stage::Over,
            Ok(0) => self.input_ended = true,
            Ok(length) => self.input.extend_from_slice(&bytes[..length]),
            Err(error) => self.fail(error.kind()),
        }
    }

    fn write(&mut self, now: Instant) {
        if let Some(rest) = self.rest.take() {
            self.output.extend_from_slice(rest.made().as_bytes());
        }
        if self.output.is_empty() {
            return;
        }
        match self.stream.write(&self.output) {
            Ok(length) => {
                self.output.drain(..length);
                self.deadline = now + PATIENCE;
            }
            Err(error) => self.fail(error.kind()),
        }
        if self.output.is_empty() && self.stage == Stage::Answering {
            self.stage = Stage::Over;
        }
    }

    fn fail(&mut self, kind: ErrorKind) {
        if !matches!(kind, ErrorKind::WouldBlock | ErrorKind::Interrupted) {
            self.stage = Stage::Over;
        }
    }
}
