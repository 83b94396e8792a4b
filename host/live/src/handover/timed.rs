//! A stream that is waited for until a certain time, however little comes at a time.

use std::io::{self, ErrorKind, Read, Write};
use std::os::unix::net::UnixStream;
use std::time::{Duration, Instant};

/// A stream with a time by which all must be read and written.
#[derive(Debug)]
pub struct Timed {
    pub stream: UnixStream,
    deadline: Instant,
}

impl Timed {
    /// So much time is left for all.
    pub fn new(stream: UnixStream, time: Duration) -> io::Result<Timed> {
        stream.set_nonblocking(false)?;
        Ok(Timed { stream, deadline: Instant::now() + time })
    }

    /// The time that is left for the next call; none is an error.
    pub fn left(&self) -> io::Result<Option<Duration>> {
        match self.deadline.saturating_duration_since(Instant::now()) {
            Duration::ZERO => Err(ErrorKind::TimedOut.into()),
            left => Ok(Some(left)),
        }
    }

    /// Reads on until a line ends, or the stream does, or the line has `most` bytes; nothing past its end. What came before an
    /// error is there.
    pub fn read_line(&mut self, line: &mut Vec<u8>, most: usize) -> io::Result<()> {
        let mut byte = [0];
        while line.len() < most && line.last() != Some(&b'\n') && self.read(&mut byte)? == 1 {
            line.push(byte[0]);
        }
        Ok(())
    }
}

impl Read for Timed {
    fn read(&mut self, bytes: &mut [u8]) -> io::Result<usize> {
        loop {
            self.stream.set_read_timeout(self.left()?)?;
            match self.stream.read(bytes) {
                // so ends a read with a time limit in a process that was stopped and goes on
                Err(error) if error.kind() == ErrorKind::Interrupted => {}
                read => return read,
            }
        }
    }
}

impl Write for Timed {
    fn write(&mut self, bytes: &[u8]) -> io::Result<usize> {
        self.stream.set_write_timeout(self.left()?)?;
        self.stream.write(bytes)
    }

    fn flush(&mut self) -> io::Result<()> {
        Ok(())
    }
}
