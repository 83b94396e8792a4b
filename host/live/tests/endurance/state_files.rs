//! State files that can't be used, or not as they are.

use crate::daemon::Daemon;
use crate::layouts::numbered;
use crate::model::{Model, CONFIG};
use crate::rig::Rig;
use live::handover::layout;
use live::handover::snapshot::Snapshot;
use std::fs;
use std::path::Path;

/// A good state file, of a daemon with five connections that has ended.
fn good_file(rig: &mut Rig) -> Vec<u8> {
    rig.set_weight(0, 9);
    let openings = rig.openings(5);
    rig.send(&openings);
    rig.daemon.must_end_by("TERM");
    fs::read(rig.place.file("sock.state")).unwrap()
}

/// The same state, changed and whole.
fn changed(good: &[u8], change: impl FnOnce(&mut Snapshot)) -> Vec<u8> {
    let mut snapshot = layout::read(good).unwrap();
    change(&mut snapshot);
    layout::bytes_of(&snapshot)
}

/// Each is put aside with its reason, and the daemon begins empty with the configuration's weights.
pub fn bad_files(rig: &mut Rig) {
    let good = good_file(rig);
    let mut damaged = good.clone();
    damaged[500] ^= 4;
    for (bytes, reason) in files_with_reasons(&good, damaged) {
        fs::write(rig.place.file("sock.state"), &bytes).unwrap();
        rig.start_again();
        must_be_put_aside(&mut rig.daemon, &bytes, reason);
        rig.model = Model::new();
        rig.check();
        rig.must_serve();
        rig.daemon.must_end_by("TERM");
    }
    fs::write(rig.place.file("sock.state"), &good).unwrap();
    other_configurations(rig, &good);
    rig.start_again();
    rig.model = Model::new();
    rig.check();
}

/// Files that can't be used, and why.
fn files_with_reasons(good: &[u8], damaged: Vec<u8>) -> [(Vec<u8>, &'static str); 10] {
    [
        (good[..good.len() / 2].to_vec(), "it is cut or damaged: its checksum is "),
        (Vec::new(), "it is no director's state"),
        (damaged, "it is cut or damaged: its checksum is "),
        (numbered(good, 4), "its layout is 4, and this program reads 1, 2 and 3"),
        (changed(good, |other| other.state.servers[0].count += 1), "the library refuses it: "),
        (
            changed(good, |other| other.counters.idle_removed = u64::MAX),
            "its counts are none that a director can have",
        ),
        (
            changed(good, |other| other.entries.truncate(1)),
            "its book is not that of its connections",
        ),
        (
            changed(good, |other| other.assigned[1].is_down = true),
            "its weights are not those that were set",
        ),
        (changed(good, |other| other.clock.speed = 7), "its clock runs 7 times as fast as time, "),
        (
            changed(good, |other| other.state.clock = u32::MAX),
            "its clock is ahead of the machine's",
        ),
    ]
}

/// A good file that the configuration doesn't go with any more.
fn other_configurations(rig: &mut Rig, good: &[u8]) {
    let file = rig.place.file("nidhaaguf.conf");
    for (from, to, reason) in [
        (
            "10.2.0.5",
            "10.3.0.5",
            format!("its server 1 is 10.2.0.5:6432, and {file} line 5 says 10.3.0.5:6432"),
        ),
        ("slots 64", "slots 65", format!("its number of slots is 64, and {file} line 3 says 65")),
        (
            "5432 tcp",
            "5432 udp",
            format!(
                "its service is 192.0.2.10:5432 tcp, and {file} line 1 says 192.0.2.10:5432 udp"
            ),
        ),
        (
            "weighted-",
            "",
            format!("its scheduler is weighted-round-robin, and {file} line 2 says round-robin"),
        ),
    ] {
        fs::write(rig.place.file("sock.state"), good).unwrap();
        let mut daemon = Daemon::start(&rig.place, &CONFIG.replace(from, to), &[]);
        must_be_put_aside(&mut daemon, good, &reason);
        let status = daemon.text("status");
        assert!(status.contains(", 0 of 6"), "{status}");
        assert!(status.contains("  2       0            0     0         in service\n"), "{status}");
        daemon.signal("KILL");
        daemon.wait();
    }
}

fn must_be_put_aside(daemon: &mut Daemon, bytes: &[u8], reason: &str) {
    assert_eq!(daemon.words, "");
    let path = format!("{}.state", daemon.socket);
    let log = daemon.await_log("no connection is known\n");
    let words = format!("<3>nidhaagufd: the state file {path} is not used: {reason}");
    assert!(log.contains(&words), "{log}");
    assert!(
        log.contains(&format!("; it is now {path}.bad, and no connection is known\n")),
        "{log}"
    );
    assert_eq!(fs::read(format!("{path}.bad")).unwrap(), bytes);
    assert!(!Path::new(&path).exists());
}

/// A file that lies there when a director is taken over is older than that: it is put aside, so that no later start uses it.
pub fn older_than_a_take_over(rig: &mut Rig) {
    let good = good_file(rig);
    let path = rig.place.file("sock.state");
    rig.start_again();
    fs::write(&path, &good).unwrap();
    rig.take_over();
    let words = format!(
        "<4>nidhaagufd: the state file {path} is older than this director: it is now {path}.bad\n"
    );
    rig.daemon.await_log(&words);
    assert_eq!(fs::read(format!("{path}.bad")).unwrap(), good);
    rig.must_begin_empty_when_killed();
}

/// A state of before the machine was started anew: connections and counts are forgotten, the weights that were set are kept.
pub fn of_another_boot(rig: &mut Rig) {
    let good = good_file(rig);
    let other = changed(&good, |other| other.boot = "another".into());
    fs::write(rig.place.file("sock.state"), other).unwrap();
    rig.start_again();
    rig.daemon
        .await_log("<4>nidhaagufd: the machine was started anew: 5 connections are forgotten\n");
    assert!(rig.daemon.words.starts_with("resumed 0 connections at clock "));
    rig.model = Model::new();
    rig.model.set_weight(0, 9);
    rig.check();
    rig.set_weight(0, 2);
    rig.must_serve();
}
