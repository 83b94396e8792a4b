//! A daemon, the link to its device, and the model that tells what it should do.

use crate::counts::Counts;
use crate::daemon::{Daemon, PATIENCE};
use crate::link::{self, Link};
use crate::model::{Model, CONFIG, SLOTS, VIRTUAL};
use crate::place::{as_nobody, command, Place};
use reference::packets::{self, ACK, RST, SYN};
use std::process::Command;
use std::time::{Duration, Instant};

/// Fewer than the device's queue takes.
const BATCH: usize = 200;

/// What the model, whose clock stands still, can't foretell.
const UNTOLD: [&str; 3] =
    ["nidhaaguf_clock_seconds", "nidhaaguf_early_endings_total", "nidhaaguf_device_drops_total"];

pub struct Rig {
    pub daemon: Daemon,
    pub link: Link,
    pub model: Model,
    pub place: Place,
    user: User,
    next_port: u16,
}

/// Who runs the daemon.
#[derive(Clone, Copy, PartialEq, Eq)]
pub enum User {
    Root,
    /// A user without rights: the place is its own, and the device was made for it.
    Nobody,
}

impl Rig {
    pub fn start(name: &str) -> Rig {
        Rig::start_as(User::Root, Place::new(name))
    }

    pub fn start_as(user: User, place: Place) -> Rig {
        let daemon = Daemon::run(daemon_of(user, &place, &[]), &place);
        link::ip("link set nid0 up");
        let expected = format!(
            "ready: 192.0.2.10:5432 tcp, weighted-round-robin, 2 servers, {SLOTS} slots, device nid0, control socket {}\n",
            daemon.socket
        );
        assert_eq!(daemon.ready, expected);
        let link = Link::open("nid0");
        let mut rig = Rig { daemon, link, model: Model::new(), place, user, next_port: 1_024 };
        rig.must_serve();
        rig
    }

    /// Sends packets; what comes back, and all counts, must be what the model says.
    pub fn send(&mut self, packets: &[Vec<u8>]) {
        for batch in packets.chunks(BATCH) {
            let expected = self.send_ahead(batch);
            self.must_receive(expected);
            self.await_packets();
        }
        self.check();
    }

    /// Sends packets, fewer than the device's queue takes, and tells what is to come back.
    pub fn send_ahead(&mut self, packets: &[Vec<u8>]) -> Vec<Vec<u8>> {
        packets.iter().for_each(|packet| self.link.send(packet));
        packets.iter().filter_map(|packet| self.model.take(packet)).collect()
    }

    /// These packets must come, in any order.
    pub fn must_receive(&self, mut expected: Vec<Vec<u8>>) {
        let mut received: Vec<_> =
            expected.iter().map_while(|_| self.link.receive(PATIENCE)).collect();
        expected.sort();
        received.sort();
        assert_eq!(received, expected);
    }

    /// Waits until the daemon has counted all packets.
    pub fn await_packets(&self) {
        let deadline = Instant::now() + PATIENCE;
        while self.counts().packets() < self.model.packets() {
            assert!(Instant::now() < deadline, "{:?}\n{:?}", self.counts(), self.model.counts());
            std::thread::sleep(Duration::from_millis(1));
        }
    }

    /// All counts, and the table, must be the model's; and nothing was written beside what was expected.
    pub fn check(&self) {
        let expected = self.model.counts();
        let told = UNTOLD.iter().fold(self.counts(), |counts, name| counts.without(name));
        assert_eq!(told, expected);
        assert_eq!(self.link.receive(Duration::ZERO), None);
        let status = self.daemon.text("status");
        let used = expected.get("nidhaaguf_slots_used");
        assert!(status.contains(&format!(", {used} of {SLOTS} slots used, ")), "{status}");
    }

    pub fn counts(&self) -> Counts {
        Counts::of_metrics(&self.daemon.text("metrics"))
    }

    /// A connection of a new client is opened and kept: both packets come out rewritten, and their checksums verify.
    pub fn must_serve(&mut self) {
        let client = (0x0A00_0001, self.new_port());
        for flags in [SYN, ACK] {
            let packet = packets::tcp(client, VIRTUAL, flags).build();
            self.link.send(&packet);
            let expected = self.model.take(&packet).expect("the model refuses");
            let received = self.link.receive(PATIENCE).expect("no packet comes out");
            assert_eq!(received, expected);
            assert!(packets::header_verifies(&received) && packets::transport_verifies(&received));
        }
        self.end_all();
    }

    /// Ends all connections by resets.
    pub fn end_all(&mut self) {
        let resets = self.model.packets_of_all(RST);
        self.send(&resets);
        assert_eq!(self.model.counts().get("nidhaaguf_slots_used"), 0);
    }

    /// Sets a weight, of the daemon and of the model.
    pub fn set_weight(&mut self, server: u32, weight: u16) {
        let answer = self.daemon.text(&format!("weight {server} {weight}"));
        assert!(answer.contains(&format!(": weight {weight}, ")), "{answer}");
        self.model.set_weight(server, weight);
    }

    /// SYNs of new clients.
    pub fn openings(&mut self, clients: usize) -> Vec<Vec<u8>> {
        let client = |rig: &mut Rig| (0x0A00_0001, rig.new_port());
        (0..clients).map(|_| packets::tcp(client(self), VIRTUAL, SYN).build()).collect()
    }

    /// Another process takes over, with packets on their way all the while: none is lost, none is answered twice, and the
    /// old process ends well. Gives its log.
    pub fn take_over(&mut self) -> String {
        let used = self.model.counts().get("nidhaaguf_slots_used");
        let expected = self.send_ahead(&self.model.packets_of_all(ACK));
        let next = Daemon::run(daemon_of(self.user, &self.place, &["--take-over"]), &self.place);
        self.must_receive(expected);
        assert!(next.words.starts_with(&format!("took over {used} connections at clock ")));
        assert!(next.words.ends_with(", weights kept\n"), "{}", next.words);
        let old = std::mem::replace(&mut self.daemon, next);
        let (code, out, log) = old.wait();
        let handed = format!("handed {used} connections over to process {}", self.daemon.process());
        assert_eq!((code, out.as_str()), (Some(0), ""), "{log}");
        let last = log.lines().last().unwrap_or_default();
        assert!(last.starts_with(&format!("<5>nidhaagufd: {handed} after ")), "{log}");
        self.check();
        log
    }

    /// Ends the daemon by a signal and starts it again: all goes on, on a new device.
    pub fn restart(&mut self, signal: &str) {
        let used = self.model.counts().get("nidhaaguf_slots_used");
        self.daemon.must_end_by(signal);
        self.start_again();
        let words = format!("resumed {used} connections at clock ");
        assert!(self.daemon.words.starts_with(&words), "{}", self.daemon.words);
        self.check();
    }

    /// Starts the daemon that was ended, on a new device.
    pub fn start_again(&mut self) {
        self.daemon = Daemon::run(daemon_of(self.user, &self.place, &[]), &self.place);
        link::ip("link set nid0 up");
        self.link = Link::open("nid0");
    }

    /// The daemon is killed; the next one must begin empty, with the configuration's weights.
    pub fn must_begin_empty_when_killed(&mut self) {
        self.daemon.signal("KILL");
        assert_eq!(self.daemon.outcome().0, None);
        self.start_again();
        assert_eq!(self.daemon.words, "");
        self.model = Model::new();
        self.check();
        self.must_serve();
    }

    /// A client's port that wasn't used yet.
    pub fn new_port(&mut self) -> u16 {
        self.next_port += 1;
        self.next_port
    }
}

/// The daemon's command for a user.
fn daemon_of(user: User, place: &Place, flags: &[&str]) -> Command {
    let command = command(place, CONFIG, "nid0", flags);
    match user {
        User::Root => command,
        User::Nobody => as_nobody(&command, place),
    }
}
