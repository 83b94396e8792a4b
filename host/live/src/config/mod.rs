//! The configuration: a file of settings, one to a line, and flags that override some.

pub mod compare;
pub mod flags;
pub mod given;
pub mod reload;
pub mod setup;
pub mod words;

use crate::policy::{Policy, Unknown};
use flags::Flags;
use given::Given;
use nidhaaguf::{Protocol, Scheduler, Server, Settings};
use std::fs::{File, OpenOptions};
use std::io::{self, Read};
use std::net::SocketAddrV4;
use std::os::unix::fs::OpenOptionsExt;
use std::path::{Path, PathBuf};

/// Where the control socket is unless told otherwise.
pub const DEFAULT_SOCKET: &str = "/run/nidhaaguf.sock";
const DEFAULT_DEVICE: &str = "nid0";
const DEFAULT_SLOTS: usize = 4_096;
const DEFAULT_RESETS: u32 = 200;
const DEFAULT_OPENING_TIMEOUT: u32 = 30;

/// More than any good file has: the wrong file is not read to its end.
const MOST_BYTES: u64 = 65_536;
const O_NONBLOCK: i32 = 0o4000;

/// A whole configuration. Whether the library takes it is for [`crate::config::setup`] to find out.
#[derive(Clone, Debug, PartialEq, Eq)]
pub struct Config {
    /// What its file is called in messages.
    pub name: String,
    /// The virtual address and port, and the protocol.
    pub service: Given<(SocketAddrV4, Protocol)>,
    /// How servers are picked.
    pub scheduler: Given<Scheduler>,
    /// Room for so many connections.
    pub slots: Given<usize>,
    /// The TUN device's name.
    pub device: Given<String>,
    /// The control socket's path.
    pub socket: Given<PathBuf>,
    /// The state file's path.
    pub state: Given<PathBuf>,
    /// What becomes of packets of unknown connections.
    pub unknown: Given<Unknown>,
    /// So many seconds a TCP connection may be opening; 0 for any time.
    pub opening_timeout: Given<u32>,
    /// The servers by number.
    pub servers: Vec<Given<Server>>,
}

impl Config {
    /// Reads the file that the flags name, and lets the flags override.
    pub fn load(flags: Flags) -> Result<Config, String> {
        Config::load_by(flags, |path| File::open(path))
    }

    /// The same while the director serves: a file that would keep it waiting, as a pipe, is refused.
    pub fn load_again(flags: Flags) -> Result<Config, String> {
        Config::load_by(flags, open_regular)
    }

    fn load_by(
        flags: Flags,
        open: impl FnOnce(&Path) -> io::Result<File>,
    ) -> Result<Config, String> {
        let path = flags.config.clone().unwrap_or_default();
        let name = path.display().to_string();
        let text = text_of(open(&path)).map_err(|error| format!("{name}: {error}"))?;
        Config::read(&text, &name, flags)
    }

    /// Reads the text of the file called `name`, and lets the flags override.
    pub fn read(text: &str, name: &str, flags: Flags) -> Result<Config, String> {
        let mut draft = Draft::default();
        for (index, line) in text.lines().enumerate() {
            let place = format!("{name} line {}", index + 1);
            draft.take(line, &place).map_err(|complaint| format!("{place}: {complaint}"))?;
        }
        draft.finish(flags, name)
    }

    /// What the library is set up with.
    pub fn settings(&self) -> Settings {
        let (service, protocol) = self.service.value;
        let servers = self.servers.iter().map(|server| server.value).collect();
        Settings { service, protocol, scheduler: self.scheduler.value, servers }
    }

    /// What may be changed beside the weights while the director serves.
    pub fn policy(&self) -> Policy {
        Policy { unknown: self.unknown.value, opening_timeout: self.opening_timeout.value }
    }

    /// What is for TCP alone is not said of UDP.
    fn checked(self) -> Result<Config, String> {
        let Policy { unknown, opening_timeout } = self.policy();
        let (place, form, got) = match (self.service.value.1, unknown, opening_timeout) {
            (Protocol::Tcp, ..) | (_, Unknown::Drop, 0) => return Ok(self),
            (_, Unknown::Reset(_), _) => {
                (&self.unknown.place, "unknown drop", format!("unknown {unknown}"))
            }
            (_, Unknown::Drop, seconds) => {
                let place = &self.opening_timeout.place;
                (place, "opening-timeout 0", format!("opening-timeout {seconds}"))
            }
        };
        Err(format!("{place}: expected `{form}` for udp, got {got:?}"))
    }
}

fn open_regular(path: &Path) -> io::Result<File> {
    // else to open a pipe would wait already
    let file = OpenOptions::new().read(true).custom_flags(O_NONBLOCK).open(path)?;
    match file.metadata()?.is_file() {
        true => Ok(file),
        false => Err(io::Error::other("a reload takes a regular file")),
    }
}

fn text_of(file: io::Result<File>) -> Result<String, String> {
    let mut bytes = Vec::new();
    let file = file.map_err(|error| format!("can't be opened: {error}"))?;
    let read = file.take(MOST_BYTES + 1).read_to_end(&mut bytes);
    match read.map_err(|error| format!("can't be read: {error}"))? as u64 {
        0..=MOST_BYTES => Ok(String::from_utf8_lossy(&bytes).into_owned()),
        _ => Err(format!("expected a configuration, got more than {MOST_BYTES} bytes")),
    }
}

/// The settings of the lines read so far.
#[derive(Default)]
struct Draft {
    service: Option<Given<(SocketAddrV4, Protocol)>>,
    scheduler: Option<Given<Scheduler>>,
    slots: Option<Given<usize>>,
    device: Option<Given<String>>,
    socket: Option<Given<PathBuf>>,
    state: Option<Given<PathBuf>>,
    unknown: Option<Given<Unknown>>,
    opening_timeout: Option<Given<u32>>,
    servers: Vec<Given<Server>>,
}

impl Draft {
    /// Takes a line; the error is without its place.
    fn take(&mut self, line: &str, place: &str) -> Result<(), String> {
        let setting = line.split('#').next().unwrap_or_default();
        let words: Vec<&str> = setting.split_whitespace().collect();
        let Some((name, values)) = words.split_first() else { return Ok(()) };
        match (*name, values) {
            ("service", [at, protocol]) => {
                let value = (words::address(at)?, words::protocol(protocol)?);
                put(&mut self.service, value, place)
            }
            ("scheduler", [word]) => put(&mut self.scheduler, words::scheduler(word)?, place),
            ("slots", [word]) => put(&mut self.slots, words::slots(word)?, place),
            ("device", [word]) => put(&mut self.device, word.to_string(), place),
            ("socket", [word]) => put(&mut self.socket, PathBuf::from(word), place),
            ("state", [word]) => put(&mut self.state, PathBuf::from(word), place),
            ("unknown", ["drop"]) => put(&mut self.unknown, Unknown::Drop, place),
            ("unknown", ["reset"]) => put(&mut self.unknown, Unknown::Reset(DEFAULT_RESETS), place),
            ("unknown", ["reset", most]) => {
                put(&mut self.unknown, Unknown::Reset(words::resets(most)?), place)
            }
            ("opening-timeout", [word]) => {
                put(&mut self.opening_timeout, words::opening_timeout(word)?, place)
            }
            ("server", [at, "weight", weight]) => {
                let server = Server { at: words::address(at)?, weight: words::weight(weight)? };
                self.servers.push(Given::new(server, place));
                Ok(())
            }
            _ => Err(expected(name, setting.trim())),
        }
    }

    fn finish(self, flags: Flags, name: &str) -> Result<Config, String> {
        let missing = |setting| format!("{name}: no {setting} is given: {}", form(setting));
        let by_default = |setting| format!("{setting} by default");
        if self.servers.is_empty() {
            return Err(missing("server"));
        }
        let scheduler = flags.scheduler.or(self.scheduler).ok_or_else(|| missing("scheduler"))?;
        let slots = || Given::new(DEFAULT_SLOTS, &by_default("slots"));
        let device = || Given::new(DEFAULT_DEVICE.into(), &by_default("device"));
        let socket = || Given::new(DEFAULT_SOCKET.into(), &by_default("socket"));
        let socket = flags.socket.or(self.socket).unwrap_or_else(socket);
        let state = || Given::new(beside(&socket.value), &by_default("state"));
        let service = self.service.ok_or_else(|| missing("service"))?;
        let policy = default_policy(service.value.1);
        let unknown = || Given::new(policy.unknown, &by_default("unknown"));
        let timeout = || Given::new(policy.opening_timeout, &by_default("opening-timeout"));
        let config = Config {
            name: name.to_string(),
            state: self.state.unwrap_or_else(state),
            service,
            scheduler,
            slots: flags.slots.or(self.slots).unwrap_or_else(slots),
            device: flags.device.or(self.device).unwrap_or_else(device),
            socket,
            unknown: self.unknown.unwrap_or_else(unknown),
            opening_timeout: self.opening_timeout.unwrap_or_else(timeout),
            servers: self.servers,
        };
        config.checked()
    }
}

fn default_policy(protocol: Protocol) -> Policy {
    let (unknown, opening_timeout) = (Unknown::Reset(DEFAULT_RESETS), DEFAULT_OPENING_TIMEOUT);
    match protocol {
        Protocol::Tcp => Policy { unknown, opening_timeout },
        Protocol::Udp => Policy::NONE,
    }
}

/// Where the state file is unless told otherwise.
fn beside(socket: &Path) -> PathBuf {
    let mut path = socket.as_os_str().to_owned();
    path.push(".state");
    path.into()
}

/// Each setting but the servers is given once.
fn put<T>(setting: &mut Option<Given<T>>, value: T, place: &str) -> Result<(), String> {
    match setting {
        Some(given) => Err(format!("given a second time: it is given at {} already", given.place)),
        None => {
            *setting = Some(Given::new(value, place));
            Ok(())
        }
    }
}

fn expected(name: &str, setting: &str) -> String {
    match form(name) {
        "" => format!(
            "expected a setting: service, scheduler, slots, device, socket, state, unknown, \
             opening-timeout or server, got {name:?}"
        ),
        form => format!("{form}, got {setting:?}"),
    }
}

/// What a setting looks like; empty for a name that is none.
fn form(name: &str) -> &'static str {
    match name {
        "service" => "expected `service ADDRESS:PORT tcp` or `service ADDRESS:PORT udp`",
        "scheduler" => "expected `scheduler NAME`, as `scheduler least-connection`",
        "slots" => "expected `slots NUMBER`",
        "device" => "expected `device NAME`",
        "socket" => "expected `socket PATH`, without spaces",
        "state" => "expected `state PATH`, without spaces",
        "unknown" => "expected `unknown reset`, `unknown reset NUMBER` or `unknown drop`",
        "opening-timeout" => "expected `opening-timeout SECONDS`",
        "server" => "expected `server ADDRESS:PORT weight NUMBER`",
        _ => "",
    }
}
