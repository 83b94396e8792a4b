//! A daemon with clients that open and finish connections, and an operator.

use crate::counts::Counts;
use crate::daemon::{output, Daemon, Outcome, PATIENCE};
use crate::json::jq;
use crate::link::Link;
use crate::model::{CONFIG, SERVERS, VIRTUAL};
use crate::place::{control, Place};
use reference::packets::{self, ACK, FIN, RST, SYN};
use std::process::{Command, Stdio};

/// A daemon, and the link to its device.
pub struct Service {
    pub daemon: Daemon,
    pub link: Link,
    pub place: Place,
}

impl Service {
    /// Of two servers, with the weights 2 and 1.
    pub fn start(name: &str) -> Service {
        let place = Place::new(name);
        let daemon = Daemon::start(&place, CONFIG, &[]);
        Service { daemon, link: Link::open("nid0"), place }
    }

    /// Another process takes over.
    pub fn take_over(&mut self) {
        let next = Daemon::take_over(&self.place, CONFIG, &[]);
        let (code, _, log) = std::mem::replace(&mut self.daemon, next).wait();
        assert_eq!(code, Some(0), "{log}");
    }

    /// Sends a packet of a client, which must pass; tells the number of the server that it goes to.
    pub fn send(&self, port: u16, flags: u8) -> usize {
        self.link.send(&packets::tcp((0x0A00_0001, port), VIRTUAL, flags).build());
        let passed = self.link.receive(PATIENCE).expect("no packet comes out");
        let at = u32::from_be_bytes(passed[16..20].try_into().unwrap());
        SERVERS.iter().position(|server| server.0 == at).expect("it goes to no server")
    }

    /// Opens a client's connection; tells its server.
    pub fn open(&self, port: u16) -> usize {
        let server = self.send(port, SYN);
        assert_eq!(self.send(port, ACK), server);
        server
    }

    /// Both ends finish.
    pub fn finish(&self, port: u16) {
        let server = self.send(port, FIN | ACK);
        self.link.send(&packets::tcp(SERVERS[server], (0x0A00_0001, port), FIN | ACK).build());
        assert!(self.link.receive(PATIENCE).is_some());
    }

    /// The client resets it.
    pub fn reset(&self, port: u16) {
        self.send(port, RST);
    }

    /// The operator's command, not started yet.
    pub fn command(&self, words: &[&str]) -> Command {
        let mut command = control();
        command.args(["--socket", &self.daemon.socket]).args(words);
        command.stdin(Stdio::null()).stdout(Stdio::piped()).stderr(Stdio::piped());
        command
    }

    /// What it comes to.
    pub fn control(&self, words: &[&str]) -> Outcome {
        output(&mut self.command(words))
    }

    /// What it prints where it succeeds.
    pub fn said(&self, words: &[&str]) -> String {
        let (code, out, log) = self.control(words);
        assert_eq!((code, log.as_str()), (Some(0), ""), "{words:?}: {out}");
        out
    }

    /// What `jq` makes of its JSON.
    pub fn json(&self, words: &[&str], filter: &str) -> String {
        jq(&self.said(words), filter)
    }

    /// A count of the metrics.
    pub fn count(&self, name: &str) -> u64 {
        Counts::of_metrics(&self.daemon.text("metrics")).get(name)
    }
}
