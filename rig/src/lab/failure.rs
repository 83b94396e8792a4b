//! Failures in plain words, and waiting that fails in the end.

use std::fmt;
use std::time::{Duration, Instant};

/// Between two looks at something that is waited for.
const PAUSE: Duration = Duration::from_millis(10);

/// What went wrong, in plain words.
#[derive(Debug, Clone, PartialEq, Eq)]
pub struct Failure(pub String);

impl fmt::Display for Failure {
    fn fmt(&self, out: &mut fmt::Formatter<'_>) -> fmt::Result {
        out.write_str(&self.0)
    }
}

impl From<std::io::Error> for Failure {
    fn from(error: std::io::Error) -> Failure {
        Failure(error.to_string())
    }
}

/// A failure with these words.
pub fn fail<T>(words: impl Into<String>) -> Result<T, Failure> {
    Err(Failure(words.into()))
}

/// Fails with these words unless the fact holds.
pub fn ensure(fact: bool, words: impl Into<String>) -> Result<(), Failure> {
    if fact {
        Ok(())
    } else {
        fail(words)
    }
}

/// Looks again and again until there is something to give back; fails when the time is over.
pub fn wait_for<T>(
    what: &str,
    within: Duration,
    mut look: impl FnMut() -> Result<Option<T>, Failure>,
) -> Result<T, Failure> {
    let begin = Instant::now();
    loop {
        if let Some(found) = look()? {
            return Ok(found);
        }
        if begin.elapsed() > within {
            return fail(format!("waited {} s in vain: {what}", within.as_secs()));
        }
        std::thread::sleep(PAUSE);
    }
}
