//! The daemon's command line.

use crate::config::given::Given;
use crate::config::words;
use nidhaaguf::Scheduler;
use std::ffi::OsString;
use std::path::PathBuf;

/// The daemon's help.
pub const HELP: &str = "\
nidhaagufd: a packet director for one virtual address, between clients and servers

usage: nidhaagufd --config FILE [--take-over] [flags]

  --config FILE       the configuration, one setting to a line:
                        service 192.0.2.10:5432 tcp      (or udp)
                        scheduler least-connection       (round-robin, weighted-round-robin, least-connection,
                                                          weighted-least-connection, or 1 to 4)
                        server 10.1.0.5:6432 weight 1    (number 0; the next is number 1, up to 63)
                        slots 4096                       (optional: room for so many connections, 1 to 4096)
                        device nid0                      (optional: the TUN device, created where it isn't there)
                        socket /run/nidhaaguf.sock       (optional: the control socket of nidhaagufctl)
                        state /run/nidhaaguf.sock.state  (optional: where the connections are kept from one start to the next)
                        unknown reset 200                (optional: packets of unknown TCP connections are answered with resets,
                                                          at most so many a second; or `unknown drop`)
                        opening-timeout 30               (optional: seconds that a TCP connection may be opening; 0 for ever)
  --take-over         take the connections, the device and the control socket over from the nidhaagufd that serves there now;
                      where that can't be, it serves on
  --device NAME       this device instead
  --socket PATH       this control socket instead
  --scheduler NAME    this scheduler instead
  --slots N           so many slots instead
  --clock-speed N     the clock runs N times as fast, 1 to 1000; for drills only
  --log-time          each line of the log with its time, as where no journal adds it
  --check             read the configuration, say whether it is good, and exit
  --help, --version

SIGTERM, SIGINT and SIGQUIT end it, with its connections kept for the next start. SIGHUP reads the configuration anew and sets the
weights that have changed in it.

Exit status: 0 ended by a signal, or handed over; 1 something failed; 2 wrong usage or a bad configuration.
";

/// What the command line asks for.
#[derive(Debug)]
pub enum Request {
    /// Print the help.
    Help,
    /// Print the version.
    Version,
    /// Serve, or check the configuration.
    Run(Flags),
}

/// The flags, each given once at most.
#[derive(Clone, Debug, Default)]
pub struct Flags {
    /// The configuration file.
    pub config: Option<PathBuf>,
    /// In place of the file's device.
    pub device: Option<Given<String>>,
    /// In place of the file's control socket.
    pub socket: Option<Given<PathBuf>>,
    /// In place of the file's scheduler.
    pub scheduler: Option<Given<Scheduler>>,
    /// In place of the file's slots.
    pub slots: Option<Given<usize>>,
    /// How many times as fast the clock runs.
    pub clock_speed: Option<u32>,
    /// Take over from the director that serves there now.
    pub take_over: bool,
    /// Each line of the log has its time.
    pub log_time: bool,
    /// Only check the configuration.
    pub check: bool,
}

/// Reads the arguments after the program's name.
pub fn read(arguments: impl Iterator<Item = OsString>) -> Result<Request, String> {
    let mut flags = Flags::default();
    let mut words = arguments.map(|word| {
        word.into_string().map_err(|word| format!("the argument {word:?} isn't UTF-8 text"))
    });
    while let Some(word) = words.next() {
        let flag = word?;
        match flag.as_str() {
            "--help" | "-h" => return Ok(Request::Help),
            "--version" => return Ok(Request::Version),
            "--check" => flags.check = true,
            "--take-over" => flags.take_over = true,
            "--log-time" => flags.log_time = true,
            _ => {
                let value = words.next().transpose()?;
                flags.take(&flag, value).map_err(|complaint| format!("{flag}: {complaint}"))?;
            }
        }
    }
    match flags.config {
        Some(_) => Ok(Request::Run(flags)),
        None => Err("--config FILE is missing".into()),
    }
}

impl Flags {
    /// Takes a flag that has a value.
    fn take(&mut self, flag: &str, value: Option<String>) -> Result<(), String> {
        let given = || value.clone().ok_or_else(|| "expected a value after it".to_string());
        match flag {
            "--config" => put(&mut self.config, given()?.into()),
            "--device" => put(&mut self.device, Given::new(given()?, flag)),
            "--socket" => put(&mut self.socket, Given::new(given()?.into(), flag)),
            "--scheduler" => {
                put(&mut self.scheduler, Given::new(words::scheduler(&given()?)?, flag))
            }
            "--slots" => put(&mut self.slots, Given::new(words::slots(&given()?)?, flag)),
            "--clock-speed" => put(&mut self.clock_speed, speed(&given()?)?),
            _ => Err("there is no such flag, see --help".into()),
        }
    }
}

fn put<T>(place: &mut Option<T>, value: T) -> Result<(), String> {
    match place.replace(value) {
        None => Ok(()),
        Some(_) => Err("given twice".into()),
    }
}

fn speed(word: &str) -> Result<u32, String> {
    let expected = "1 to 1000";
    let speed = words::number(word, expected)?;
    match (1..=1000).contains(&speed) {
        true => Ok(speed),
        false => Err(format!("expected {expected}, got {word:?}")),
    }
}
