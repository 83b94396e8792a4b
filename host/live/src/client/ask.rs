//! What is said to a director over its control socket. Where the director goes away before it has answered, another process may
//! have taken over: it is asked again there.

use crate::client::failure::Failure;
use crate::client::output::print;
use std::io::{self, BufRead, BufReader, ErrorKind, Read, Write};
use std::os::unix::net::UnixStream;
use std::path::Path;
use std::time::Duration;

/// Longer than the director gives a client that keeps others waiting.
pub const PATIENCE: Duration = Duration::from_secs(15);

/// So often in a row an answer may be missing; a director that has ended is told at once, since nobody can connect to it.
const MOST_MISSING: u32 = 5;

/// Says a command's line; gives the whole answer. It is read before anything is done with it: so whoever reads it from here may be
/// as slow as he likes.
pub fn say(path: &Path, line: &str, patience: Duration) -> Result<String, Failure> {
    for _ in 0..MOST_MISSING {
        let Some(mut answer) = begin(path, line, patience)? else { continue };
        let mut text = String::new();
        answer.read_to_string(&mut text).map_err(|error| no_director(path, &error, patience))?;
        // every answer ends so; what doesn't was cut
        if text.ends_with('\n') {
            return Ok(text);
        }
    }
    Err(gone(path))
}

/// Prints the status, and again each time it changed. It has no end of its own.
pub fn watch(path: &Path) -> Result<(), Failure> {
    let mut missing = 0;
    while missing < MOST_MISSING {
        let Some(mut answer) = begin(path, "watch", PATIENCE)? else {
            missing += 1;
            continue;
        };
        missing = 0;
        let unlimited = answer.get_ref().set_read_timeout(None);
        unlimited.map_err(|error| no_director(path, &error, PATIENCE))?;
        copy_lines(&mut answer, path)?;
        // as before each table but the first
        print("\n")?;
    }
    Err(gone(path))
}

/// Says a command's line; gives what comes after the first line of a good answer, None where the answer is missing.
fn begin(
    path: &Path,
    line: &str,
    patience: Duration,
) -> Result<Option<BufReader<UnixStream>>, Failure> {
    let lost = |error: io::Error| no_director(path, &error, patience);
    let mut stream = UnixStream::connect(path).map_err(lost)?;
    stream.set_read_timeout(Some(patience)).map_err(lost)?;
    stream.set_write_timeout(Some(patience)).map_err(lost)?;
    // turned away, it may be gone already, and yet have said why
    let _ = stream.write_all(format!("{line}\n").as_bytes());
    let mut answer = BufReader::new(stream);
    let mut first = String::new();
    match answer.read_line(&mut first) {
        Err(error) if error.kind() == ErrorKind::ConnectionReset => return Ok(None),
        read => read.map_err(lost)?,
    };
    match (first.trim_end(), first.strip_prefix("error: ")) {
        ("ok", _) => Ok(Some(answer)),
        (_, Some(complaint)) => Err(Failure::Refused(complaint.trim_end().into())),
        _ => Ok(None),
    }
}

fn copy_lines(answer: &mut impl BufRead, path: &Path) -> Result<(), Failure> {
    let mut line = String::new();
    while answer.read_line(&mut line).map_err(|error| no_director(path, &error, PATIENCE))? > 0 {
        print(&line)?;
        line.clear();
    }
    Ok(())
}

fn gone(path: &Path) -> Failure {
    Failure::Wrong(format!("the director at {} is gone", path.display()))
}

fn no_director(path: &Path, error: &io::Error, patience: Duration) -> Failure {
    let why = match error.kind() {
        ErrorKind::NotFound => "there is no such socket".to_string(),
        ErrorKind::ConnectionRefused => "nobody listens on the socket".into(),
        ErrorKind::PermissionDenied => "only the director's user and root may".into(),
        ErrorKind::WouldBlock => format!("no answer within {} s", patience.as_secs()),
        _ => error.to_string(),
    };
    let complaint = format!("can't talk to a director at {}: {why}", path.display());
    match error.kind() {
        ErrorKind::WouldBlock => Failure::Silent(complaint),
        _ => Failure::Wrong(complaint),
    }
}
