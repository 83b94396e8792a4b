//! One daemon after another: what the state file carries from the first to the second.

use crate::daemon::{output, Daemon};
use crate::endings::await_metric;
use crate::link::{self, Link};
use crate::model::{CONFIG, VIRTUAL};
use crate::place::{command, Place};
use crate::rig::{Rig, User};
use reference::packets::{tcp, ACK, SYN};
use std::fs;
use std::os::unix::fs::{chown, PermissionsExt};
use std::path::Path;
use std::thread;
use std::time::{Duration, Instant};

const NOBODY: u32 = 65_534;

/// Opens some connections, and keeps those that are there.
fn open_more(rig: &mut Rig) {
    let openings = rig.openings(5);
    rig.send(&openings);
    let acknowledgements = rig.model.packets_of_all(ACK);
    rig.send(&acknowledgements);
}

/// By each signal that ends it: connections go to their servers as before, the scheduler goes on where it was, all counts go
/// on, and a server that is drained stays so.
pub fn by_each_signal(rig: &mut Rig) {
    for signal in ["TERM", "INT", "QUIT"] {
        open_more(rig);
        rig.restart(signal);
        open_more(rig);
        rig.set_weight(1, 0);
        rig.restart(signal);
        open_more(rig);
        let status = rig.daemon.text("status");
        assert!(status.contains("draining"), "{status}");
        rig.set_weight(1, 3);
    }
    rig.daemon.await_log("<5>nidhaagufd: resumed 40 connections at clock ");
    rig.end_all();
    rig.must_serve();
    rig.set_weight(1, 1);
}

/// The file is there between the two alone, for nobody else to read.
pub fn file_between(rig: &mut Rig) {
    let path = rig.place.file("sock.state");
    let exists = |path: &str| Path::new(path).exists();
    open_more(rig);
    assert!(!exists(&path));
    rig.daemon.must_end_by("TERM");
    let mode = fs::metadata(&path).unwrap().permissions().mode();
    assert_eq!((mode & 0o7777, exists(&format!("{path}.new"))), (0o600, false));
    rig.start_again();
    assert!(!exists(&path) && !exists(&format!("{path}.new")));
    rig.check();
    rig.end_all();
}

/// A daemon that was killed leaves no state, and the one of before is not used again: the next one begins empty, with the
/// configuration's weights.
pub fn killed(rig: &mut Rig) {
    open_more(rig);
    rig.set_weight(0, 9);
    rig.restart("TERM");
    rig.must_begin_empty_when_killed();
}

/// A daemon whose device was deleted has saved its state too.
pub fn without_its_device(rig: &mut Rig) {
    open_more(rig);
    link::ip("link delete nid0");
    assert_eq!(rig.daemon.outcome().0, Some(1));
    rig.start_again();
    rig.check();
    rig.end_all();
    rig.must_serve();
}

/// Take-overs and restarts in turn: the state file is of the last process.
pub fn with_take_overs(rig: &mut Rig) {
    for _ in 0..3 {
        open_more(rig);
        rig.take_over();
        open_more(rig);
        rig.restart("TERM");
    }
    rig.end_all();
    rig.must_serve();
}

/// A connection that is idle for long enough while no daemon runs is gone after the start; one that isn't stays. What else the
/// machine does may hold the first start up until it is idle, but not each time.
pub fn idle_meanwhile() {
    assert!((0..5).any(|_| is_kept_then_gone()), "a connection is gone before its time");
}

/// False where it was gone too early.
fn is_kept_then_gone() -> bool {
    // 900 s in 3
    let flags = ["--clock-speed", "300"];
    let place = Place::new("idle-meanwhile");
    let daemon = Daemon::start(&place, CONFIG, &flags);
    Link::open("nid0").send(&tcp((0x0A00_0001, 40_000), VIRTUAL, SYN).build());
    let opened = Instant::now();
    await_metric(&daemon, "nidhaaguf_packets_total{way=\"inbound\",answer=\"opened\"} 1");
    daemon.end_by("TERM");
    let daemon = Daemon::start(&place, CONFIG, &flags);
    let is_kept = daemon.words.starts_with("resumed 1 connections at clock ");
    daemon.end_by("TERM");
    thread::sleep(Duration::from_millis(3_500).saturating_sub(opened.elapsed()));
    let daemon = Daemon::start(&place, CONFIG, &flags);
    assert!(daemon.words.starts_with("resumed 0 connections at clock "), "{}", daemon.words);
    await_metric(&daemon, "nidhaaguf_idle_removed_total 1");
    let clock = daemon.words.split(' ').nth(5).unwrap().trim_end_matches(',');
    assert!(clock.parse::<u32>().unwrap() >= 900, "{}", daemon.words);
    daemon.end_by("TERM");
    is_kept
}

/// On a device that was made for it, the daemon needs no root, and the device stays over restarts.
pub fn without_root() {
    let place = Place::new("without-root");
    let devices = Place::new("devices");
    let _mounted = link::open_tun_to_all(devices.0.to_str().unwrap());
    chown(&place.0, Some(NOBODY), None).unwrap();
    link::ip("tuntap add dev nid0 mode tun user nobody");
    let mut rig = Rig::start_as(User::Nobody, place);
    let process = fs::read_to_string(format!("/proc/{}/status", rig.daemon.process())).unwrap();
    assert!(process.contains(&format!("\nUid:\t{NOBODY}\t{NOBODY}\t")), "{process}");
    open_more(&mut rig);
    rig.take_over();
    open_more(&mut rig);
    let device = link::device_number("nid0");
    rig.restart("TERM");
    assert_eq!(link::device_number("nid0"), device);
    rig.take_over();
    open_more(&mut rig);
    rig.end_all();
    rig.daemon.end_by("TERM");
    assert_eq!(link::device_number("nid0"), device);
    link::ip("tuntap del dev nid0 mode tun");
}

/// A folder that isn't there: told at the start, not at the end.
pub fn without_a_folder() {
    let place = Place::new("no-folder");
    let config = format!("{CONFIG}state /nowhere/state\n");
    let (code, out, log) = output(&mut command(&place, &config, "nid0", &[]));
    assert_eq!((code, out.as_str()), (Some(1), ""), "{log}");
    let reason = "could not be saved: No such file or directory (os error 2)";
    assert_eq!(log, format!("<3>nidhaagufd: the state file /nowhere/state {reason}\n"));
    assert!(!Path::new(&place.file("sock")).exists());
}

/// No room for the state at the end: told, with why it ended and its counts, and by its exit.
pub fn on_a_full_disk() {
    let place = Place::new("full-disk");
    let folder = place.file("small");
    fs::create_dir(&folder).unwrap();
    let _mounted = link::mount_small(&folder);
    let config = format!("{CONFIG}state {folder}/state\n");
    let daemon = Daemon::start(&place, &config, &[]);
    fs::write(format!("{folder}/other"), [1; 1 << 20]).unwrap_err();
    daemon.signal("TERM");
    let (code, _, log) = daemon.wait();
    assert_eq!(code, Some(1), "{log}");
    assert!(log.contains("<5>nidhaagufd: ended by SIGTERM; clock "), "{log}");
    let reason = "can't be saved: No space left on device (os error 28)";
    assert!(
        log.ends_with(&format!("<3>nidhaagufd: the state file {folder}/state {reason}\n")),
        "{log}"
    );
    assert!(!Path::new(&place.file("sock")).exists());
    // a part of a file doesn't count
    fs::remove_file(format!("{folder}/other")).unwrap();
    let daemon = Daemon::start(&place, &config, &[]);
    assert_eq!(daemon.words, "");
    daemon.end_by("TERM");
    assert!(Path::new(&format!("{folder}/state")).exists());
}
