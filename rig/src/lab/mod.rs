//! The laboratory of one run: its network namespaces by name, its files, and the commands that run there.

pub mod director;
mod failure;
mod metrics;
pub mod network;
pub mod postgres;
mod process;
pub mod replacement;
pub mod status;

pub use failure::{ensure, fail, wait_for, Failure};
pub use process::{output, Running, SIGALRM, SIGKILL, SIGTERM};

use programs::{Program, IP};
use std::fs::{self, File};
use std::os::unix::fs::{chown, MetadataExt};
use std::path::PathBuf;
use std::process::{Command, Stdio};

/// How many replicas there are.
pub const REPLICAS: usize = 3;

/// How many lines of a log are shown after a failure.
const LAST_LINES: usize = 5;

/// The namespaces of one run and where its files and programs are.
#[derive(Clone, Debug)]
pub struct Lab {
    /// What the names of all its namespaces begin with.
    pub prefix: String,
    /// The directory of this run's files; it is removed at the end.
    pub run: PathBuf,
    /// The data directory that PostgreSQL servers begin as copies of.
    pub template: PathBuf,
}

impl Lab {
    /// The laboratory that `rig/drill` names in the environment.
    pub fn from_environment() -> Result<Lab, Failure> {
        let get = |name: &str| {
            std::env::var(name)
                .map_err(|_| Failure(format!("{name} is not set: start the rig by rig/drill")))
        };
        let run = PathBuf::from(get("RIG_RUN")?);
        Ok(Lab { prefix: get("RIG_PREFIX")?, template: run.join("template"), run })
    }

    /// A part of the laboratory for one drill, with namespaces and a directory of its own.
    pub fn part(&self, name: &str) -> Result<Lab, Failure> {
        let run = self.run.join(name);
        fs::create_dir(&run)?;
        // PostgreSQL's user writes there.
        let owner = fs::metadata(&self.run)?;
        chown(&run, Some(owner.uid()), Some(owner.gid()))?;
        Ok(Lab { prefix: format!("{}_{name}", self.prefix), run, ..self.clone() })
    }

    /// The namespace that is called so in this run: client, director, s0, s1 and so on.
    pub fn namespace(&self, name: &str) -> String {
        format!("{}_{name}", self.prefix)
    }

    /// A command that will run in that namespace. Its process number is the program's own.
    pub fn command(&self, name: &str, program: Program) -> Command {
        let mut command = IP.command();
        command.args(["netns", "exec", &self.namespace(name), program.name()]).stdin(Stdio::null());
        command
    }

    /// Runs a program in that namespace to its end, and gives what it wrote.
    pub fn output(&self, name: &str, program: Program, args: &[&str]) -> Result<String, Failure> {
        output(self.command(name, program).args(args))
    }

    /// The last lines of a log in this run's directory.
    pub fn last_lines(&self, log: &str) -> String {
        let text = fs::read_to_string(self.run.join(log)).unwrap_or_default();
        let skipped = text.lines().count().saturating_sub(LAST_LINES);
        let lines = text.lines().skip(skipped);
        lines.map(|line| format!("\n  {log}: {line}")).collect()
    }

    /// A file of this run for what a program writes.
    pub fn log(&self, name: &str) -> Result<File, Failure> {
        Ok(File::options().create(true).append(true).open(self.run.join(name))?)
    }
}
