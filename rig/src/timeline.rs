//! What the rig tells a person while it runs.

use crate::lab::Failure;
use std::process::ExitCode;
use std::time::Instant;

/// Lines with the seconds since the start.
#[derive(Clone, Debug)]
pub struct Timeline {
    begin: Instant,
}

impl Timeline {
    /// A timeline that begins now.
    pub fn begin() -> Timeline {
        Timeline { begin: Instant::now() }
    }

    /// The title of a drill.
    pub fn title(&self, words: &str) {
        println!("\n{words}");
    }

    /// Something that happened or was found to be so.
    pub fn tell(&self, words: impl AsRef<str>) {
        println!("{:6.1} s  {}", self.begin.elapsed().as_secs_f64(), words.as_ref());
    }

    /// The end of all drills: one line, and how the program leaves.
    pub fn finish(&self, drill: &str, result: Result<(), Failure>) -> ExitCode {
        match result {
            Ok(()) => {
                self.tell(format!("PASSED: {drill}"));
                ExitCode::SUCCESS
            }
            Err(failure) => {
                self.tell(format!("FAILED: {drill}: {failure}"));
                ExitCode::FAILURE
            }
        }
    }
}
