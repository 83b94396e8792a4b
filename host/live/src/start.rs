//! How a director begins: empty, from the state file, or from the process that serves now.

use crate::clock::Clock;
use crate::config::given::Given;
use crate::config::Config;
use crate::control::socket::Socket;
use crate::control::Control;
use crate::handover::file;
use crate::handover::request::Request;
use crate::handover::snapshot::{Resumed, Snapshot};
use crate::handover::take::{take, Taken};
use crate::instance::Instance;
use crate::log::position::Position;
use crate::log::Log;
use crate::packet_thread::PacketThread;
use crate::system;
use crate::tun::Tun;
use nidhaaguf::Director;
use std::os::fd::OwnedFd;
use std::path::Path;
use std::time::Instant;

/// A director, and what is open for it.
#[derive(Debug)]
pub struct Started {
    /// The director.
    pub instance: Instance,
    /// The thread that is to serve its packets.
    pub packets: PacketThread,
    /// The clients of its control socket.
    pub control: Control,
    /// What to say of connections that go on.
    pub words: Option<String>,
}

/// Opens all there is to open, and goes on from the state file where there is one; else with `director`.
pub fn start(
    config: &Config,
    director: Director,
    speed: u32,
    log: &mut Log,
) -> Result<Started, String> {
    let name = &config.device.value;
    let device = Tun::open(name)?;
    let socket = Socket::open(&config.socket.value)?;
    // only now no other process can be saving its state there
    file::check(&config.state.value)?;
    let packets = PacketThread::start(device, name)?;
    let control = Control::new(socket, Instant::now());
    // last of all: a file that was used is gone
    let (instance, words) = match from_file(config, speed, log)? {
        Some(resumed) => {
            let (instance, words) = go_on("resumed", resumed, config, log);
            (instance, Some(words))
        }
        None => {
            let clock = Clock::new(system::since_boot(), speed);
            let instance = Instance::new(config.settings(), director, clock);
            log.go_on(Position::at_start(&instance));
            (instance, None)
        }
    };
    Ok(Started { instance: serving(instance, config), packets, control, words })
}

/// With what the configuration says of its service, whoever served before.
fn serving(mut instance: Instance, config: &Config) -> Instance {
    instance.set_policy(config.policy());
    instance.with_device(&config.device.value)
}

/// The director of the state file; None where there is none, or none that can be used.
fn from_file(config: &Config, speed: u32, log: &mut Log) -> Result<Option<Resumed>, String> {
    let (path, now) = (&config.state.value, system::since_boot());
    let Some(found) = file::load(path) else { return Ok(None) };
    match found.and_then(|snapshot| snapshot.resume(config, speed, now)) {
        Ok(resumed) => file::remove(path).map(|()| Some(resumed)),
        Err(reason) => {
            let (aside, path) = (file::put_aside(path)?, path.display());
            let aside = format!("it is now {}, and no connection is known", aside.display());
            log.error(&format!("the state file {path} is not used: {reason}; {aside}"));
            Ok(None)
        }
    }
}

/// Takes over from the process that serves at the configuration's socket.
pub fn take_over(config: &Config, speed: u32, log: &mut Log) -> Result<Started, String> {
    let request = Request::new(config.service.value);
    let Taken { device, listener, snapshot, giver } = take(&config.socket.value, request)?;
    let (resumed, packets) = match ready(config, speed, snapshot, device) {
        Ok(ready) => ready,
        Err(reason) => return Err(giver.refuse(&reason)),
    };
    giver.serve()?;
    // from here on it is this process that serves, and nothing may fail
    let control = Control::new(Socket::adopt(listener, &config.socket.value), Instant::now());
    let (instance, words) = go_on("took over", resumed, config, log);
    put_older_aside(&config.state.value, log);
    Ok(Started { instance: serving(instance, config), packets, control, words: Some(words) })
}

/// A state file that is there at a take-over is of before it, and no later start may use it.
fn put_older_aside(path: &Path, log: &mut Log) {
    if !path.exists() {
        return;
    }
    let line = match file::put_aside(path) {
        Ok(aside) => {
            let older = format!("the state file {} is older than this director", path.display());
            format!("{older}: it is now {}", aside.display())
        }
        Err(complaint) => complaint,
    };
    log.warning(&line);
}

/// All that may fail, before the other process is told that this one serves.
fn ready(
    config: &Config,
    speed: u32,
    snapshot: Snapshot,
    device: OwnedFd,
) -> Result<(Resumed, PacketThread), String> {
    let name =
        system::interface_name(&device).map_err(|error| format!("its device is none: {error}"))?;
    let Given { value, place } = &config.device;
    if name != *value {
        return Err(format!("its device is {name}, and {place} says {value}"));
    }
    file::check(&config.state.value)?;
    let resumed = snapshot.resume(config, speed, system::since_boot())?;
    Ok((resumed, PacketThread::start(device, &name)?))
}

/// A director that goes on, and what there is to say of it; the log tells it too.
fn go_on(how: &str, resumed: Resumed, config: &Config, log: &mut Log) -> (Instance, String) {
    let Resumed { mut instance, log: position, forgotten } = resumed;
    log.go_on(position);
    if let Some(connections) = forgotten {
        log.warning(&format!(
            "the machine was started anew: {connections} connections are forgotten"
        ));
    }
    // what was idle by now is told no more
    instance.tick(system::since_boot());
    let (used, clock) = (instance.director().used(), instance.director().clock());
    let words = format!("{how} {used} connections at clock {clock}, weights kept");
    log.notice(&words);
    tell_other_weights(config, &instance, log);
    (instance, words)
}

/// Weights are kept, so one that was changed in the configuration meanwhile waits for a reload.
fn tell_other_weights(config: &Config, instance: &Instance, log: &mut Log) {
    let known = instance.settings().servers.iter();
    for (number, (server, known)) in config.servers.iter().zip(known).enumerate() {
        if server.value.weight != known.weight {
            let Given { value, place } = server;
            log.notice(&format!(
                "{place}: weight {} of server {number} is not set yet: a reload sets it",
                value.weight
            ));
        }
    }
}
