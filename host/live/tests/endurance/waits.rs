//! `nidhaagufctl wait` and `drain --wait`, while directors take over, are killed and are started anew.

use crate::clients::{lines_of, Ended};
use crate::daemon::{outcome, send_signals, Daemon, Outcome, PATIENCE};
use crate::link::Link;
use crate::model::CONFIG;
use crate::service::Service;
use std::sync::mpsc::Receiver;

/// A wait, and what it says.
struct Waiting {
    process: Ended,
    lines: Receiver<String>,
}

impl Waiting {
    fn start(service: &Service, words: &[&str]) -> Waiting {
        let mut process = Ended(service.command(words).spawn().unwrap());
        let lines = lines_of(process.0.stdout.take().unwrap());
        Waiting { process, lines }
    }

    /// The next line must have these words.
    fn must_say(&mut self, words: &str) {
        let line = self.lines.recv_timeout(PATIENCE).expect(words);
        assert!(line.contains(words), "{words:?} isn't in {line:?}");
    }

    /// It asks nothing until it goes on.
    fn signal(&self, name: &str) {
        send_signals(name, &[&self.process.0.id().to_string()]);
    }

    /// Its exit code, the rest of its output, and its complaint.
    fn end(mut self) -> Outcome {
        let (code, _, log) = outcome(&mut self.process.0);
        let rest: Vec<String> = self.lines.iter().collect();
        (code, rest.join("\n"), log)
    }
}

const NONE: &str = "server 0 (10.1.0.5:6432): no connections left";

fn drained_with(name: &str, ports: std::ops::Range<u16>) -> Service {
    let service = Service::start(name);
    service.said(&["weight", "1", "0"]);
    assert!(ports.into_iter().all(|port| service.open(port) == 0));
    service
}

/// It drains, tells each change, and is over at zero.
pub fn to_zero() {
    let service = drained_with("wait", 1..4);
    let mut wait = Waiting::start(&service, &["drain", "10.1.0.5:6432", "--wait"]);
    wait.must_say("server 0 (10.1.0.5:6432): weight 0, 3 connections, draining");
    wait.must_say("3 connections left: 3 open, longest idle ");
    service.finish(1);
    wait.must_say("3 connections left: 2 open, longest idle ");
    service.reset(2);
    wait.must_say("2 connections left: 1 open, longest idle ");
    service.said(&["flush", "0"]);
    assert_eq!(wait.end(), (Some(0), NONE.into(), String::new()));
    service.daemon.end_by("TERM");
}

/// A process that takes over is the same director, and one that goes on from the state file is.
pub fn through_take_over_and_restart() {
    let mut service = drained_with("wait-through", 1..3);
    service.said(&["drain", "0"]);
    let mut wait = Waiting::start(&service, &["wait", "0"]);
    wait.must_say("2 connections left: 2 open, longest idle ");
    service.take_over();
    service.take_over();
    service.reset(1);
    wait.must_say("1 connections left: 1 open, longest idle ");
    wait.signal("STOP");
    service.daemon.must_end_by("TERM");
    service.daemon = Daemon::start(&service.place, CONFIG, &[]);
    service.link = Link::open("nid0");
    wait.signal("CONT");
    service.reset(2);
    assert_eq!(wait.end(), (Some(0), NONE.into(), String::new()));
    service.daemon.end_by("TERM");
}

/// A director that was killed and one that is started anew, and reads zero: it is another.
pub fn another_director() {
    let mut service = drained_with("wait-killed", 1..3);
    service.said(&["drain", "0"]);
    let mut wait = Waiting::start(&service, &["wait", "0"]);
    wait.must_say("2 connections left: 2 open, longest idle ");
    wait.signal("STOP");
    service.daemon.signal("KILL");
    assert_eq!(service.daemon.outcome().0, None);
    // also drained, so that nothing but its name tells it from the other
    let config = CONFIG.replace("weight 2", "weight 0");
    service.daemon = Daemon::start(&service.place, &config, &[]);
    assert_eq!(service.said(&["count", "0"]), "0\n");
    wait.signal("CONT");
    let (code, out, log) = wait.end();
    assert_eq!((code, out.as_str()), (Some(2), ""), "{log}");
    assert!(log.starts_with("nidhaagufctl: another director answers at "), "{log}");
    service.daemon.end_by("TERM");
}

/// A director that is gone.
pub fn gone() {
    let mut service = drained_with("wait-gone", 1..2);
    let mut wait = Waiting::start(&service, &["drain", "0", "--wait", "100"]);
    wait.must_say("draining");
    wait.must_say("1 connections left");
    service.daemon.must_end_by("TERM");
    let (code, _, log) = wait.end();
    assert_eq!(code, Some(2));
    assert!(log.ends_with(": there is no such socket\n"), "{log}");
}

/// The time is up; a server in service, or put back, is not waited for.
pub fn in_vain() {
    let service = drained_with("wait-vain", 1..2);
    let (code, out, log) = service.control(&["wait", "0"]);
    let words = "nidhaagufctl: server 0 (10.1.0.5:6432) is in service: ";
    assert!(code == Some(1) && out.is_empty() && log.starts_with(words), "{code:?} {out} {log}");
    let (code, out, log) = service.control(&["drain", "0", "--wait", "1"]);
    assert_eq!((code, out.lines().count()), (Some(3), 2), "{out}");
    let words =
        "nidhaagufctl: the time is up after 1 s: server 0 (10.1.0.5:6432): 1 connections left: ";
    assert!(log.starts_with(words), "{log}");
    let mut wait = Waiting::start(&service, &["wait", "0", "100"]);
    wait.must_say("1 connections left");
    service.said(&["weight", "0", "1"]);
    let (code, _, log) = wait.end();
    assert!(code == Some(1) && log.contains(" is in service: "), "{code:?} {log}");
    // down is out of service too
    service.said(&["down", "0"]);
    let mut wait = Waiting::start(&service, &["wait", "0"]);
    wait.must_say("1 connections left");
    service.reset(1);
    assert_eq!(wait.end(), (Some(0), NONE.into(), String::new()));
    service.daemon.end_by("TERM");
}
