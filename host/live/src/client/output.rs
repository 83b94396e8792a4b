//! Standard output.

use crate::client::failure::Failure;
use std::io::{self, ErrorKind, Write};

/// Prints at once; a reader that has gone, as `head` does, ends the program quietly.
pub fn print(text: &str) -> Result<(), Failure> {
    match write(text) {
        Err(error) if error.kind() == ErrorKind::BrokenPipe => std::process::exit(0),
        written => written.map_err(|error| failure(&error)),
    }
}

/// Prints at once, to whoever still reads: for a program whose end tells something, and may not come sooner.
pub fn print_on(text: &str) -> Result<(), Failure> {
    match write(text) {
        Err(error) if error.kind() == ErrorKind::BrokenPipe => Ok(()),
        written => written.map_err(|error| failure(&error)),
    }
}

fn write(text: &str) -> io::Result<()> {
    let mut out = io::stdout().lock();
    out.write_all(text.as_bytes()).and_then(|()| out.flush())
}

fn failure(error: &io::Error) -> Failure {
    Failure::Wrong(format!("standard output can't be written: {error}"))
}
