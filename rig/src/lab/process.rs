//! Programs that run: to their end, or beside the drill.

use super::failure::{ensure, wait_for, Failure};
use std::fs::{self, File};
use std::path::Path;
use std::process::{Child, Command, ExitStatus};
use std::time::Duration;

extern "C" {
    fn kill(process: i32, signal: i32) -> i32;
}

/// Ends a program that has a handler for it in order.
pub const SIGTERM: i32 = 15;
/// Ends a program at once.
pub const SIGKILL: i32 = 9;
/// The end of pgbench's time, wherever its clock stands.
pub const SIGALRM: i32 = 14;

/// How long a program may take to get ready.
const PATIENCE: Duration = Duration::from_secs(20);

/// Runs a command to its end and gives its standard output; a bad exit fails with its standard error.
pub fn output(command: &mut Command) -> Result<String, Failure> {
    let shown = shown(command);
    let done = command.output().map_err(|error| Failure(format!("{shown}: {error}")))?;
    let said = String::from_utf8_lossy(&done.stderr);
    ensure(done.status.success(), format!("{shown}: {}: {}", done.status, said.trim()))?;
    Ok(String::from_utf8_lossy(&done.stdout).into_owned())
}

/// The command as one would type it.
fn shown(command: &Command) -> String {
    let words = std::iter::once(command.get_program()).chain(command.get_args());
    words.map(|word| word.to_string_lossy()).collect::<Vec<_>>().join(" ")
}

/// A child that is ended when it is dropped.
#[derive(Debug)]
pub struct Running {
    /// The process.
    pub child: Child,
    shown: String,
}

impl Running {
    /// Starts a command.
    pub fn start(command: &mut Command) -> Result<Running, Failure> {
        let shown = shown(command);
        let child = command.spawn().map_err(|error| Failure(format!("{shown}: {error}")))?;
        Ok(Running { child, shown })
    }

    /// Starts a command whose standard output goes to that file, and waits until it says there `ready: ` first of all.
    pub fn start_ready(command: &mut Command, said: &Path) -> Result<Running, Failure> {
        let mut running = Running::start(command.stdout(File::create(said)?))?;
        let shown = running.shown.clone();
        wait_for(&format!("{shown} gets ready"), PATIENCE, || {
            ensure(running.is_alive()?, format!("{shown} ended"))?;
            Ok(fs::read_to_string(said)?.starts_with("ready: ").then_some(()))
        })?;
        Ok(running)
    }

    /// Sends the process a signal.
    pub fn signal(&self, signal: i32) -> Result<(), Failure> {
        // SAFETY: kill takes two numbers. The process was not waited for yet, so its number is still its own.
        match unsafe { kill(self.child.id() as i32, signal) } {
            0 => Ok(()),
            _ => Err(std::io::Error::last_os_error().into()),
        }
    }

    /// Whether it has not ended.
    pub fn is_alive(&mut self) -> Result<bool, Failure> {
        Ok(self.child.try_wait()?.is_none())
    }

    /// Waits for its end.
    pub fn wait(&mut self, within: Duration) -> Result<ExitStatus, Failure> {
        let what = format!("the end of {}", self.shown);
        wait_for(&what, within, || Ok(self.child.try_wait()?))
    }
}

impl Drop for Running {
    fn drop(&mut self) {
        // Both fail only where it has ended already.
        let _ = self.child.kill();
        let _ = self.child.wait();
    }
}
