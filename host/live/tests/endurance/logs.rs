//! What the log tells, and a log that nobody takes.

use crate::daemon::{ask, wait_until, Daemon};
use crate::model::{CONFIG, SLOTS};
use crate::place::{command, Place};
use crate::rig::Rig;
use std::fs::OpenOptions;
use std::io::{self, Write};
use std::os::unix::net::UnixStream;
use std::process::Stdio;
use std::time::Duration;

/// What a pipe has room for.
const PIPE: usize = 65_536;

/// The lines of a log with these words.
fn lines_with<'a>(log: &'a str, words: &str) -> Vec<&'a str> {
    log.lines().filter(|line| line.contains(words)).collect()
}

/// A drain in the log: the weight, by whom, and the end; a weight that is set to what it is already is no change.
pub fn drained_server(rig: &mut Rig) {
    let openings = rig.openings(6);
    rig.send(&openings);
    for _ in 0..2 {
        assert!(rig.daemon.text("drain 0").ends_with(", draining\n"));
        rig.model.set_weight(0, 0);
    }
    rig.end_all();
    let drained = "server 0 (10.1.0.5:6432) is drained: no connections, may be unplugged";
    rig.daemon.await_log(drained);
    rig.set_weight(0, 2);
    let log = rig.daemon.await_log("weight 0 -> 2");
    let expected = [
        "<5>nidhaagufd: server 0 (10.1.0.5:6432): weight 2 -> 0, by user 0".to_string(),
        format!("<5>nidhaagufd: {drained}"),
        "<5>nidhaagufd: server 0 (10.1.0.5:6432): weight 0 -> 2, by user 0".to_string(),
    ];
    assert_eq!(lines_with(log, "server 0"), expected);
    rig.must_serve();
}

/// A full table and its room are told once each, however many are refused.
pub fn full_table(rig: &mut Rig) {
    let more = 1_000;
    let openings = rig.openings(SLOTS + more);
    rig.send(&openings);
    let full = "<4>nidhaagufd: the table is full: 64 of 64 slots used, new connections are refused";
    rig.daemon.await_log(full);
    rig.end_all();
    let log = rig.daemon.await_log(&format!(" slots used, {more} openings were refused\n"));
    assert_eq!(lines_with(log, "the table is full"), [full]);
    assert_eq!(lines_with(log, "the table has room again: ").len(), 1, "{log}");
    rig.must_serve();
}

/// What one process has told, the next one that takes over doesn't tell again; it goes on counting.
pub fn handed_on() {
    let mut rig = Rig::start("handed");
    let openings = rig.openings(SLOTS + 10);
    rig.send(&openings);
    rig.daemon.await_log("the table is full: ");
    rig.take_over();
    let openings = rig.openings(7);
    rig.send(&openings);
    rig.end_all();
    let log = rig.daemon.await_log(" slots used, 17 openings were refused\n");
    assert_eq!(lines_with(log, "the table is full"), [""; 0]);
    rig.must_serve();
}

/// Standard output, standard error or both on a full disk, or in a full pipe that nobody reads: it serves, and ends as ever.
pub fn full_devices() {
    let full = || Stdio::from(OpenOptions::new().write(true).open("/dev/full").unwrap());
    for output in [Stdio::piped(), full()] {
        assert_eq!(log_with(output, full()), "");
    }
    let (_reader, mut pipe) = io::pipe().unwrap();
    pipe.write_all(&[b'x'; PIPE]).unwrap();
    for output in [full(), pipe.into()] {
        let log = log_with(output, Stdio::piped());
        let lost = "<4>nidhaagufd: standard output has not taken the line \"ready: ";
        assert!(log.starts_with(lost), "{log}");
    }
}

/// The log of a daemon with such files, which must serve.
fn log_with(output: Stdio, log: Stdio) -> String {
    let place = Place::new("full");
    let started = command(&place, CONFIG, "nid0", &[]).stdout(output).stderr(log).spawn();
    let daemon = Daemon::of_child(started.unwrap(), &place);
    await_socket(&daemon.socket);
    assert!(daemon.ask("weight 9 9").starts_with("error: there is no server"));
    assert_eq!(daemon.ask("count 0"), "ok\n0\n");
    daemon.signal("TERM");
    let (code, _, log) = daemon.wait();
    assert_eq!(code, Some(0), "{log}");
    log
}

fn await_socket(path: &str) {
    wait_until(path, || UnixStream::connect(path).is_ok());
}

/// Refused commands, each with a line, while nobody reads: each is answered, and the lines are written or counted as lost.
pub fn unread_log() {
    let commands = 10_000;
    let mut rig = Rig::start("unread");
    for _ in 0..commands {
        assert!(ask(&rig.daemon.socket, "halt").starts_with("error: expected a command: "));
    }
    rig.must_serve();
    // what it has in the pipe is read, so that there is room
    rig.daemon.await_log("refused a command");
    assert!(rig.daemon.ask("weight 9 9").starts_with("error: "));
    let log = rig.daemon.await_log("got 9\n");
    let lost = lines_with(log, " lines of the log were lost");
    let number = lost[0].split(' ').nth(1).unwrap().parse::<usize>().unwrap();
    assert_eq!(lines_with(log, "got \"halt\"").len() + number, commands);
    assert!(number > commands / 2 && lost.len() == 1, "{lost:?}");
    rig.daemon.end_by("TERM");
}

/// Nobody reads, and nobody can any more. That is a signal to the daemon each time it writes, which must not wake it forever.
pub fn closed_log() {
    let mut rig = Rig::start("closed");
    rig.daemon.close_log();
    for _ in 0..10 {
        assert!(rig.daemon.ask("halt").starts_with("error: "));
    }
    rig.daemon.signal("USR1");
    rig.must_serve();
    let before = rig.daemon.processor_time();
    std::thread::sleep(Duration::from_secs(1));
    let time = rig.daemon.processor_time() - before;
    assert!(time <= Duration::from_millis(100), "{time:?} of the processor's time in 1 s");
    rig.daemon.signal("TERM");
    assert_eq!(rig.daemon.wait().0, Some(0));
}
