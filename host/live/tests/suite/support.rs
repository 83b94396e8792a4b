//! What the tests share: an instance without a device, the packets it is given, and what is handed on of it.

use crate::own_path::own_path;
use live::clock::Clock;
use live::config::flags::Flags;
use live::config::setup;
use live::config::Config;
use live::handover::snapshot::Snapshot;
use live::instance::{Id, Instance};
use live::log::line::Form;
use live::log::output::Output;
use live::log::Log;
use live::policy::{Policy, Unknown};
use live::system::{self, Waited};
use nidhaaguf::Trace;
use reference::packets::{self, End, ACK, RST, SYN};
use std::fs::{self, OpenOptions};
use std::os::unix::net::UnixDatagram;
use std::path::PathBuf;
use std::thread;
use std::time::Duration;

pub const CONFIG: &str = "\
# the service
service 192.0.2.10:5432 tcp
scheduler least-connection
server 10.1.0.5:6432 weight 1   # number 0
server 10.2.0.5:6432 weight 1
server 10.30.0.5:6432 weight 20
";

pub const VIRTUAL: End = (0xC000_020A, 5432);
pub const SERVER: End = (0x0A01_0005, 6432);

pub fn config(text: &str) -> Config {
    Config::read(text, "test.conf", Flags::default()).unwrap()
}

/// Its clock shows 0 at time zero.
pub fn instance() -> Instance {
    instance_of(CONFIG)
}

/// The same of another configuration.
pub fn instance_of(text: &str) -> Instance {
    let config = config(text);
    let director = setup::set_up(&config).unwrap();
    Instance::new(config.settings(), director, Clock::new(Duration::ZERO, 1))
}

/// A SYN from a client that is told by its port.
pub fn syn(port: u16) -> Vec<u8> {
    packets::tcp((0x0A00_0001, port), VIRTUAL, SYN).build()
}

/// The same client's RST.
pub fn reset(port: u16) -> Vec<u8> {
    packets::tcp((0x0A00_0001, port), VIRTUAL, RST).build()
}

/// The packet with a bit of its header turned: its checksum is wrong, and nothing else.
pub fn with_a_turned_bit(mut packet: Vec<u8>) -> Vec<u8> {
    packet[8] ^= 1;
    packet
}

/// Hands a packet to the instance as its device would, and gives what it writes to it.
pub fn pass(instance: &mut Instance, packet: &[u8]) -> Option<Vec<u8>> {
    let (link, device) = UnixDatagram::pair().unwrap();
    link.set_nonblocking(true).unwrap();
    link.send(packet).unwrap();
    let mut buffer = [0; 2_048];
    assert_eq!(instance.serve(&device, &mut Trace::new(1), 1).unwrap().taken, 1);
    let length = link.recv(&mut buffer).ok()?;
    Some(buffer[..length].to_vec())
}

/// The segments of its own that it has to send, as its device gets them.
pub fn sent(instance: &mut Instance) -> Vec<Vec<u8>> {
    let (link, device) = UnixDatagram::pair().unwrap();
    thread::scope(|scope| {
        // more than the socket has room for
        let receiver = scope.spawn(|| std::iter::from_fn(|| received(&link)).collect());
        instance.send(&device);
        device.send(b"end").unwrap();
        receiver.join().unwrap()
    })
}

/// The next packet; None at the end.
fn received(link: &UnixDatagram) -> Option<Vec<u8>> {
    let mut buffer = [0; 2_048];
    let length = link.recv(&mut buffer).unwrap();
    (buffer[..length] != *b"end").then(|| buffer[..length].to_vec())
}

/// The configuration of [`small_snapshot`].
pub fn small_config() -> Config {
    config(&format!("{CONFIG}slots 6\n"))
}

/// When [`small_snapshot`] was taken.
pub const TAKEN: Duration = Duration::from_millis(4_711_500);

/// A director of few slots that has no field as it was at first: connections, one of them open, some ended, one refused, a weight
/// set, one server drained and down, a table that was full, packets of IPv6 and of unknown connections.
pub fn small_snapshot() -> Snapshot {
    let mut instance = instance_of(&format!("{CONFIG}slots 6\n"));
    let mut log = quiet_log();
    instance.set_weight(1, 0).unwrap();
    log.look(&instance);
    instance.tick(TAKEN - Duration::from_secs(1_000));
    pass(&mut instance, &syn(9));
    instance.tick(TAKEN);
    (1..=7).for_each(|port| drop(pass(&mut instance, &syn(port))));
    log.look(&instance);
    pass(&mut instance, &reset(3));
    log.info("text");
    instance.set_policy(Policy { unknown: Unknown::Reset(1), opening_timeout: 0 });
    let of_client = |port| packets::tcp((0x0A00_0001, port), VIRTUAL, ACK).build();
    [1, 98, 99].iter().for_each(|&port| drop(pass(&mut instance, &of_client(port))));
    [[0x60; 40], [0x61; 40]].iter().for_each(|noise| drop(pass(&mut instance, noise)));
    instance.set_down(1, true).unwrap();
    Snapshot { id: Id::of_number(0x0123_4567_89AB_CDEF), ..Snapshot::of(&instance, &log) }
}

/// Waits until the other end of a file, which was dropped, is closed: a program that another test starts meanwhile has it too until it runs.
pub fn await_end(file: Waited) {
    let mut end = [file];
    system::wait(&mut end, Duration::from_secs(10)).unwrap();
    assert!(end[0].is_ready(), "the other end isn't closed");
}

/// A log that nobody reads.
pub fn quiet_log() -> Log {
    let nowhere = OpenOptions::new().write(true).open("/dev/null").unwrap();
    Log::new(Output::new(nowhere), Form::Plain)
}

/// A folder of its own for a test, removed in the end.
pub struct Folder(pub PathBuf);

impl Folder {
    pub fn new(name: &str) -> Folder {
        let path = own_path(name);
        fs::create_dir(&path).unwrap();
        Folder(path)
    }

    pub fn file(&self, name: &str) -> PathBuf {
        self.0.join(name)
    }
}

impl Drop for Folder {
    fn drop(&mut self) {
        let _ = fs::remove_dir_all(&self.0);
    }
}
