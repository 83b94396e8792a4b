//! Take-overs by a real process: what goes on meanwhile, and those that are refused.

use crate::counts::Counts;
use crate::daemon::{output, wait_until, Daemon, PATIENCE};
use crate::floods::Stops;
use crate::link::Link;
use crate::model::{CONFIG, VIRTUAL};
use crate::place::{as_nobody, command, control, Place};
use crate::rig::Rig;
use reference::packets::{tcp, ACK, SYN};
use std::fs;
use std::io::{BufRead, BufReader};
use std::os::unix::fs::PermissionsExt;
use std::process::{Child, Stdio};
use std::sync::atomic::{AtomicBool, Ordering};
use std::thread;
use std::time::{Duration, Instant};

/// Ten in a row with connections that come and stay, a server that is drained, a watch that goes on, and commands without a
/// pause, of which none fails.
pub fn ten_in_a_row(rig: &mut Rig) {
    let mut watch = watch(rig);
    let (stop, socket) = (AtomicBool::new(false), rig.daemon.socket.clone());
    let commands = thread::scope(|scope| {
        let operator = scope.spawn(|| operate(&socket, &stop));
        let stops = Stops(&stop);
        for round in 0..10 {
            let openings = rig.openings(4);
            rig.send(&openings);
            // the file is as it was, and the weight is kept
            rig.set_weight(1, round % 3);
            rig.take_over();
        }
        drop(stops);
        operator.join().unwrap()
    });
    assert!(commands > 3, "only {commands} commands");
    assert_eq!(rig.counts().get("nidhaaguf_slots_used"), 40);
    rig.set_weight(1, 77);
    let mut lines = BufReader::new(watch.stdout.take().unwrap()).lines().map_while(Result::ok);
    assert!(lines.any(|line| line.contains("  77  ")), "the watch has ended");
    watch.kill().unwrap();
    watch.wait().unwrap();
    rig.set_weight(1, 1);
    rig.end_all();
    rig.must_serve();
}

/// `nidhaagufctl watch`.
fn watch(rig: &Rig) -> Child {
    let mut command = control();
    command.args(["--socket", &rig.daemon.socket, "watch"]);
    command.stdout(Stdio::piped()).spawn().unwrap()
}

/// An operator who asks without a pause, and is always answered; tells how often.
fn operate(socket: &str, stop: &AtomicBool) -> usize {
    let commands = [&["status"][..], &["weight", "0", "2"], &["count", "0"], &["metrics"]];
    let asked = commands.iter().cycle().take_while(|_| !stop.load(Ordering::Relaxed));
    asked
        .map(|words| {
            let (code, out, log) = output(control().args(["--socket", socket]).args(*words));
            assert!(code == Some(0) && !out.is_empty(), "{words:?}: {code:?} {log}");
        })
        .count()
}

/// The connections stay though the device is never without a packet: each packet that the daemons count came back once.
pub fn under_a_flood() {
    let place = Place::new("flooded");
    let mut daemon = Daemon::start(&place, CONFIG, &[]);
    let link = Link::open("nid0");
    let client = (0x0A00_0001, 40_000);
    link.send(&tcp(client, VIRTUAL, SYN).build());
    link.receive(PATIENCE).expect("no packet comes out");
    let stop = AtomicBool::new(false);
    let mut received = thread::scope(|scope| {
        let flood = scope.spawn(|| flood(&link, &tcp(client, VIRTUAL, ACK).build(), &stop));
        let stops = Stops(&stop);
        for _ in 0..5 {
            let before = kept(&daemon);
            let next = Daemon::take_over(&place, CONFIG, &[]);
            let (code, _, log) = std::mem::replace(&mut daemon, next).wait();
            assert_eq!(code, Some(0), "{log}");
            assert!(daemon.words.starts_with("took over 1 connections at clock "));
            wait_until("packets are served", || kept(&daemon) > before);
        }
        drop(stops);
        flood.join().unwrap()
    });
    wait_until("all that is counted has come", || {
        received += received_within(&link, Duration::from_millis(100));
        kept(&daemon) == received
    });
    assert!(received > 1_000, "only {received} packets");
    daemon.end_by("TERM");
}

/// Packets of a connection: "kept".
fn kept(daemon: &Daemon) -> u64 {
    let name = "nidhaaguf_packets_total{way=\"inbound\",answer=\"kept\"}";
    Counts::of_metrics(&daemon.text("metrics")).get(name)
}

/// Sends a packet over and over and takes what comes back; tells how many came.
fn flood(link: &Link, packet: &[u8], stop: &AtomicBool) -> u64 {
    let mut received = 0;
    while !stop.load(Ordering::Relaxed) {
        // what the queue has no room for is lost, as it would be on any link
        (0..256).for_each(|_| _ = link.offer(packet));
        received += received_within(link, Duration::from_millis(1));
    }
    received
}

/// How many packets come, until none has come for that time.
fn received_within(link: &Link, time: Duration) -> u64 {
    std::iter::from_fn(|| link.receive(time)).count() as u64
}

/// A weight that was changed in the file meanwhile is told, and set by a reload.
pub fn changed_weights(rig: &mut Rig) {
    let config = CONFIG.replace("weight 2", "weight 7");
    let next = Daemon::take_over(&rig.place, &config, &[]);
    let (code, _, log) = std::mem::replace(&mut rig.daemon, next).wait();
    assert_eq!(code, Some(0), "{log}");
    let place = format!("{} line 4", rig.place.file("nidhaaguf.conf"));
    rig.daemon.await_log(&format!(
        "<5>nidhaagufd: {place}: weight 7 of server 0 is not set yet: a reload sets it\n"
    ));
    rig.check();
    assert_eq!(rig.daemon.text("reload"), "server 0 (10.1.0.5:6432): weight 2 -> 7\n");
    rig.model.set_weight(0, 7);
    rig.must_serve();
    // the configured weight is handed on as well: the file of before asks for a change now
    rig.take_over();
    assert_eq!(rig.daemon.text("reload"), "server 0 (10.1.0.5:6432): weight 7 -> 2\n");
    rig.model.set_weight(0, 2);
    rig.must_serve();
}

/// Another configuration than the old process has: told with its line or flag, by both; the old one serves on at once.
pub fn other_configurations(rig: &mut Rig) {
    let openings = rig.openings(3);
    rig.send(&openings);
    let path = rig.place.file("nidhaaguf.conf");
    let second = "its server 1 is 10.2.0.5:6432, and ";
    let state = "the state file /nowhere/state could not be saved: No such file or directory";
    for (config, words) in [
        (CONFIG.replace("5432 tcp", "5433 tcp"), other_service("192.0.2.10:5433 tcp")),
        (CONFIG.replace("5432 tcp", "5432 udp"), other_service("192.0.2.10:5432 udp")),
        (
            CONFIG.replace("10.2.0.5", "10.3.0.5"),
            format!("{second}{path} line 5 says 10.3.0.5:6432"),
        ),
        (
            CONFIG.replace("server 10.2.0.5:6432 weight 1\n", ""),
            format!("{second}{path} says none"),
        ),
        (
            format!("{CONFIG}server 10.3.0.5:1 weight 1\n"),
            format!("its server 2 is none, and {path} line 8 says 10.3.0.5:1"),
        ),
        (format!("{CONFIG}state /nowhere/state\n"), format!("{state} (os error 2)")),
    ] {
        must_be_refused(rig, command(&rig.place, &config, "nid0", &["--take-over"]), &words);
    }
    rig.end_all();
}

fn other_service(asked: &str) -> String {
    format!("the service {asked} is asked for, and 192.0.2.10:5432 tcp is served here")
}

/// Other flags than the old process had.
pub fn other_flags(rig: &mut Rig) {
    let openings = rig.openings(3);
    rig.send(&openings);
    let scheduler = "its scheduler is weighted-round-robin, and --scheduler says round-robin";
    for (device, flags, words) in [
        ("nid0", &["--slots", "65"][..], "its number of slots is 64, and --slots says 65"),
        ("nid0", &["--scheduler", "1"], scheduler),
        (
            "nid0",
            &["--clock-speed", "2"],
            "its clock runs 1 times as fast as time, and not 2 times",
        ),
        ("nid1", &[], "its device is nid0, and --device says nid1"),
    ] {
        let flags = [&["--take-over"], flags].concat();
        must_be_refused(rig, command(&rig.place, CONFIG, device, &flags), words);
    }
    rig.end_all();
}

/// A new process that ends with that reason, and an old one that serves on.
fn must_be_refused(rig: &mut Rig, mut command: std::process::Command, reason: &str) {
    let expected = rig.send_ahead(&rig.model.packets_of_all(ACK));
    let started = Instant::now();
    let (code, out, log) = output(&mut command);
    assert_eq!((code, out.as_str()), (Some(1), ""), "{log}");
    let last = log.lines().last().unwrap_or_default();
    assert!(last.starts_with("<3>nidhaagufd: nothing was taken over: "), "{log}");
    assert!(last.ends_with(reason), "{log}");
    // told at once: nobody had to wait until it was too late
    rig.must_receive(expected);
    assert!(started.elapsed() < live::handover::PATIENCE);
    rig.daemon.await_log(reason);
    rig.check();
}

/// Who may not command the director doesn't get it either.
pub fn other_users(rig: &mut Rig) {
    let socket = rig.daemon.socket.clone();
    let command = command(&rig.place, CONFIG, "nid0", &["--take-over"]);
    for (mode, words) in [
        (0o600, format!("no director serves at {socket}: Permission denied (os error 13)\n")),
        (0o666, "hands nothing over: only user 0 and root may command this director\n".into()),
    ] {
        fs::set_permissions(&socket, fs::Permissions::from_mode(mode)).unwrap();
        let (code, out, log) = output(&mut as_nobody(&command, &rig.place));
        assert_eq!((code, out.as_str()), (Some(1), ""), "{log}");
        assert!(log.ends_with(&words), "{log}");
        rig.must_serve();
    }
    rig.daemon.await_log("<4>nidhaagufd: turned user 65534 away from the control socket\n");
    fs::set_permissions(&socket, fs::Permissions::from_mode(0o600)).unwrap();
}

/// Another layout, as an earlier or a later program would ask for; and lines that are no request.
pub fn other_layouts(rig: &mut Rig) {
    for (line, answer) in [
        ("take-over 2 192.0.2.10:5432 tcp", "layout 2 is asked for, and this program's is 3"),
        ("take-over 4 192.0.2.10:5432 tcp", "layout 4 is asked for, and this program's is 3"),
        (
            "take-over 3 192.0.2.10:5432 udp",
            "the service 192.0.2.10:5432 udp is asked for, and 192.0.2.10:5432 tcp is served here",
        ),
        ("take-over", "expected `take-over LAYOUT ADDRESS:PORT PROTOCOL`"),
    ] {
        assert_eq!(rig.daemon.ask(line), format!("error: {answer}\n"));
        rig.daemon.await_log(&format!("refused a command of user 0: {answer}\n"));
        rig.must_serve();
    }
}

/// Nobody there, and a socket that nobody answers.
pub fn nobody_there() {
    let place = Place::new("nobody-there");
    for reason in ["No such file or directory (os error 2)", "Connection refused (os error 111)"] {
        let (code, out, log) = output(&mut command(&place, CONFIG, "nid0", &["--take-over"]));
        assert_eq!((code, out.as_str()), (Some(1), ""));
        let words = format!("no director serves at {}: {reason}\n", place.file("sock"));
        assert!(log.ends_with(&words), "{log}");
        // left by one that was killed
        drop(std::os::unix::net::UnixListener::bind(place.file("sock")));
    }
}
