//! The live director in its namespace: `nidhaagufd`, and what `nidhaagufctl` says of it.

use crate::lab::network::{self, balanced, DEVICE, SERVER_PORT, VIRTUAL, VIRTUAL_PORT};
use crate::lab::replacement::{Handover, Replacement};
use crate::lab::status::Status;
use crate::lab::{ensure, fail, output, Failure, Lab, Running, SIGKILL, SIGTERM};
use programs::{NIDHAAGUFCTL, NIDHAAGUFD};
use std::ffi::OsString;
use std::fmt::Write;
use std::fs;
use std::io::{BufRead, BufReader, ErrorKind};
use std::path::{Path, PathBuf};
use std::process::Stdio;
use std::sync::{mpsc, RwLock, RwLockWriteGuard};
use std::time::Duration;

/// How long the director may take to start or to end.
const PATIENCE: Duration = Duration::from_secs(20);
/// Its files in the directory of the run.
const CONFIGURATION: &str = "director.conf";
const SOCKET: &str = "director.sock";
/// Where it leaves its state when it ends, unless the configuration says otherwise.
const STATE: &str = "director.sock.state";

/// How a director is set up.
#[derive(Clone, Debug)]
pub struct Options {
    /// The scheduler's name, as in the configuration.
    pub scheduler: &'static str,
    /// Slots of the connection table.
    pub slots: usize,
    /// The servers' weights, one to a server.
    pub weights: Vec<u16>,
    /// How many times as fast as real time its clock runs.
    pub clock_speed: u32,
    /// Whether its device is made beforehand, and stays when it ends.
    pub device_stays: bool,
    /// Further lines of its configuration.
    pub settings: Vec<String>,
    /// The folder of another build of it, in place of the one here.
    pub build: Option<PathBuf>,
}

impl Default for Options {
    fn default() -> Options {
        Options {
            scheduler: "least-connection",
            slots: 4096,
            weights: vec![1, 1, 1],
            clock_speed: 1,
            device_stays: false,
            settings: Vec::new(),
            build: None,
        }
    }
}

impl Options {
    /// The default, with a clock that runs so fast.
    pub fn at_speed(clock_speed: u32) -> Options {
        Options { clock_speed, ..Options::default() }
    }
}

/// A running director.
#[derive(Debug)]
pub struct Director {
    /// Whoever asks holds it for reading, and a restart for writing: nobody asks while nobody serves.
    running: RwLock<Running>,
    lab: Lab,
    options: Options,
}

impl Director {
    /// Writes the configuration, starts `nidhaagufd` and waits until it serves. Its log is `director.log`.
    pub fn start(lab: &Lab, options: &Options) -> Result<Director, Failure> {
        let socket = lab.run.join(SOCKET).display().to_string();
        fs::write(lab.run.join(CONFIGURATION), text_of(options, &socket))?;
        remove_state(lab)?;
        if options.device_stays {
            network::add_device(lab)?;
        }
        let (running, said) = launch(lab, options, &[])?;
        ensure(said.is_empty(), format!("the first director said {said:?}"))?;
        Ok(Director { running: RwLock::new(running), lab: lab.clone(), options: options.clone() })
    }

    /// Lets a new process follow the one that runs, which must leave in order. Gives what the new one says of it.
    pub fn replace(&self, how: Replacement) -> Result<Handover, Failure> {
        let said = match how {
            Replacement::TakeOver => self.take_over()?,
            Replacement::Restart => self.restart()?,
        };
        let handover = match said.as_slice() {
            [line] => how.read(line),
            _ => None,
        };
        handover.ok_or_else(|| Failure(format!("after a {how} the director said {said:?}")))
    }

    /// All may ask meanwhile: there is always one that answers.
    fn take_over(&self) -> Result<Vec<String>, Failure> {
        let (new, said) = launch(&self.lab, &self.options, &["--take-over"])?;
        let mut old = std::mem::replace(&mut *self.exclusively(), new);
        wait_until_left(&mut old, "after another took over")?;
        Ok(said)
    }

    /// Whoever asks meanwhile waits for the new process.
    fn restart(&self) -> Result<Vec<String>, Failure> {
        let mut running = self.exclusively();
        end(&mut running)?;
        let (new, said) = launch(&self.lab, &self.options, &[])?;
        *running = new;
        let used = !self.lab.run.join(STATE).exists();
        ensure(used, "the state is still in its file after the restart")?;
        Ok(said)
    }

    /// Kills its process, whose table is lost, and starts another, which must begin empty. Whoever asks meanwhile waits.
    pub fn kill_and_start(&self) -> Result<(), Failure> {
        let mut running = self.exclusively();
        running.signal(SIGKILL)?;
        running.wait(PATIENCE)?;
        let (new, said) = launch(&self.lab, &self.options, &[])?;
        *running = new;
        ensure(said.is_empty(), format!("after it was killed the director said {said:?}"))
    }

    fn exclusively(&self) -> RwLockWriteGuard<'_, Running> {
        self.running.write().expect(UNBROKEN)
    }

    /// Its table, at its clock.
    pub fn status(&self) -> Result<Status, Failure> {
        self.ask(&["status"])?.parse()
    }

    /// Sets the weight of a server.
    pub fn set_weight(&self, server: usize, weight: u16) -> Result<(), Failure> {
        self.ask(&["weight", &server.to_string(), &weight.to_string()]).map(|_| ())
    }

    /// Drains a server: weight 0.
    pub fn drain(&self, server: usize) -> Result<(), Failure> {
        self.ask(&["drain", &server.to_string()]).map(|_| ())
    }

    /// Its control socket.
    pub fn socket(&self) -> PathBuf {
        self.lab.run.join(SOCKET)
    }

    /// Its configuration.
    pub fn configuration(&self) -> PathBuf {
        self.lab.run.join(CONFIGURATION)
    }

    /// Makes the routes of the service on its host, as an operator does.
    pub fn make_routes(&self) -> Result<(), Failure> {
        let config = self.configuration().display().to_string();
        let order = ["routes", "--up", "--config", &config];
        self.lab.output("director", NIDHAAGUFCTL, &order).map(|_| ())
    }

    /// Begins a command that takes its time; what it says goes to that file.
    pub fn begin(&self, args: &[&str], said: &Path) -> Result<Running, Failure> {
        let mut command = NIDHAAGUFCTL.command();
        command.arg("--socket").arg(self.socket()).args(args);
        Running::start(command.stdout(fs::File::create(said)?))
    }

    /// Ends the connection of a client, by its address and port.
    pub fn disconnect(&self, client: &str) -> Result<String, Failure> {
        self.ask(&["disconnect", client])
    }

    /// Ends all connections of a server.
    pub fn flush(&self, server: usize) -> Result<String, Failure> {
        self.ask(&["flush", &server.to_string()])
    }

    /// The count of a server.
    pub fn count(&self, server: usize) -> Result<u32, Failure> {
        let said = self.ask(&["count", &server.to_string()])?;
        said.trim().parse().map_err(|_| Failure(format!("count said '{}'", said.trim())))
    }

    /// Its metrics, in Prometheus' text form.
    pub fn metrics(&self) -> Result<String, Failure> {
        self.ask(&["metrics"])
    }

    /// Ends it by SIGTERM; it must leave in order.
    pub fn stop(self) -> Result<(), Failure> {
        end(&mut self.exclusively())
    }

    fn ask(&self, args: &[&str]) -> Result<String, Failure> {
        let _served = self.running.read().expect(UNBROKEN);
        output(NIDHAAGUFCTL.command().arg("--socket").arg(self.socket()).args(args))
    }
}

/// A thread that panics breaks the lock that it holds.
const UNBROKEN: &str = "no thread broke off with the director's lock";

/// Starts the program, and waits until it serves. Gives what it said before.
fn launch(lab: &Lab, options: &Options, flags: &[&str]) -> Result<(Running, Vec<String>), Failure> {
    let mut command = lab.command("director", NIDHAAGUFD);
    if let Some(folder) = &options.build {
        command.env("PATH", path_beginning_with(folder)?);
    }
    command.arg("--config").arg(lab.run.join(CONFIGURATION));
    command.args(["--clock-speed", &options.clock_speed.to_string()]).args(flags);
    command.stdout(Stdio::piped()).stderr(lab.log("director.log")?);
    let mut running = Running::start(&mut command)?;
    let lines = BufReader::new(running.child.stdout.take().expect("a pipe was asked for")).lines();
    let (sender, receiver) = mpsc::channel();
    // It reads on to the end, so that the director can always write.
    std::thread::spawn(move || {
        lines.map_while(Result::ok).for_each(|line| drop(sender.send(line)))
    });
    let mut said = Vec::new();
    while let Ok(line) = receiver.recv_timeout(PATIENCE) {
        if line.starts_with("ready: ") {
            return Ok((running, said));
        }
        said.push(line);
    }
    fail(format!("the director didn't get ready, and said {said:?}"))
}

fn end(running: &mut Running) -> Result<(), Failure> {
    running.signal(SIGTERM)?;
    wait_until_left(running, "after SIGTERM")
}

fn wait_until_left(running: &mut Running, when: &str) -> Result<(), Failure> {
    let status = running.wait(PATIENCE)?;
    ensure(status.success(), format!("the director ended with {status} {when}"))
}

/// What an earlier director has left is not for one that begins.
fn remove_state(lab: &Lab) -> Result<(), Failure> {
    match fs::remove_file(lab.run.join(STATE)) {
        Err(error) if error.kind() != ErrorKind::NotFound => Err(error.into()),
        _ => Ok(()),
    }
}

/// The path on which that folder comes first. Its program must be there: the next folder's would be taken without a word.
fn path_beginning_with(folder: &Path) -> Result<OsString, Failure> {
    let program = folder.join(NIDHAAGUFD.name());
    ensure(program.is_file(), format!("there is no {}", program.display()))?;
    let mut path = folder.as_os_str().to_owned();
    path.push(":");
    path.push(std::env::var_os("PATH").unwrap_or_default());
    Ok(path)
}

/// The text of the configuration.
fn text_of(options: &Options, socket: &str) -> String {
    let Options { scheduler, slots, weights, settings, .. } = options;
    let mut text = format!(
        "service {VIRTUAL}:{VIRTUAL_PORT} tcp\nscheduler {scheduler}\nslots {slots}\ndevice {DEVICE}\nsocket {socket}\n"
    );
    for (k, weight) in weights.iter().enumerate() {
        writeln!(text, "server {}:{SERVER_PORT} weight {weight}", balanced(k))
            .expect("a string grows");
    }
    settings.iter().fold(text, |text, line| text + line + "\n")
}

#[cfg(test)]
mod tests {
    use super::*;

    #[test]
    fn another_build_must_be_there() {
        let missing = path_beginning_with(Path::new("/nowhere"));
        assert_eq!(missing, fail("there is no /nowhere/nidhaagufd"));
    }
}
