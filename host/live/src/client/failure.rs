//! What can go wrong, and how the program ends then.

use std::io::{self, Write};
use std::process::ExitCode;

/// What went wrong.
#[derive(Clone, Debug, PartialEq, Eq)]
pub enum Failure {
    /// The director refused: exit 1.
    Refused(String),
    /// Wrong usage, or no director there: exit 2.
    Wrong(String),
    /// A director is there and doesn't answer in time: exit 2.
    Silent(String),
    /// A wait took as long as it may: exit 3.
    TimeIsUp(String),
}

impl Failure {
    /// Tells it; gives the code to exit with.
    pub fn tell(&self) -> ExitCode {
        let (complaint, code) = match self {
            Failure::Refused(complaint) => (complaint, 1),
            Failure::Wrong(complaint) | Failure::Silent(complaint) => (complaint, 2),
            Failure::TimeIsUp(complaint) => (complaint, 3),
        };
        // nobody may be reading any more
        let _ = writeln!(io::stderr(), "nidhaagufctl: {complaint}");
        ExitCode::from(code)
    }
}
