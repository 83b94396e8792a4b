//! Where lines are written, without ever waiting.

use crate::system::{self, Waited};
use std::fs::{File, OpenOptions};
use std::io::{self, IsTerminal, Write};
use std::os::fd::{AsFd, AsRawFd, BorrowedFd};
use std::os::unix::fs::{FileTypeExt, OpenOptionsExt};
use std::time::Duration;

const O_NOCTTY: i32 = 0o400;
const O_NONBLOCK: i32 = 0o4000;

/// A file that takes lines, or loses them.
#[derive(Debug)]
pub struct Output {
    file: Option<File>,
    /// Its last line was taken in part.
    is_cut: bool,
}

impl Output {
    /// Lines to that file.
    pub fn new(file: File) -> Output {
        Output { file: Some(file), is_cut: false }
    }

    /// Lines to standard output.
    pub fn standard_output() -> Output {
        Output { file: unwaiting(io::stdout().as_fd()).ok(), is_cut: false }
    }

    /// Lines to standard error.
    pub fn standard_error() -> Output {
        Output { file: unwaiting(io::stderr().as_fd()).ok(), is_cut: false }
    }

    /// Writes a line if it is taken at once; tells whether it was, and whole.
    pub fn put(&mut self, line: &str) -> bool {
        let Some(file) = &mut self.file else { return false };
        let mut waited = [Waited::new(file, false, true)];
        let looked = system::wait(&mut waited, Duration::ZERO);
        if looked.is_err() || !waited[0].is_ready() {
            return false;
        }
        // else it would go on the one that was cut, as by a disk that was full
        let text = format!("{}{line}", if self.is_cut { "\n" } else { "" });
        let taken = file.write(text.as_bytes()).ok();
        self.is_cut = taken.map_or(self.is_cut, |length| length < text.len());
        taken == Some(text.len())
    }
}

/// A pipe or a terminal is opened anew where that is possible: then a write doesn't wait even where another program fills it
/// after the look. That program is not concerned, as it would be by a change of the file that it shares.
fn unwaiting(file: BorrowedFd<'_>) -> io::Result<File> {
    let shared = File::from(file.try_clone_to_owned()?);
    if !shared.is_terminal() && !shared.metadata()?.file_type().is_fifo() {
        return Ok(shared);
    }
    let mut anew = OpenOptions::new();
    anew.write(true).custom_flags(O_NONBLOCK | O_NOCTTY);
    anew.open(format!("/proc/self/fd/{}", file.as_raw_fd())).or(Ok(shared))
}
