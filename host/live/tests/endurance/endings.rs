//! Starts that can't be, and ends.

use crate::daemon::{output, wait_until, Daemon};
use crate::link::{self, Link};
use crate::model::{CONFIG, VIRTUAL};
use crate::place::{command, Place};
use reference::packets::{tcp, SYN};
use std::fs;
use std::io::{Read, Write};
use std::path::Path;
use std::time::{Duration, Instant};

/// A second director on the same device or the same socket doesn't start, and the first serves on.
pub fn second_director() {
    let place = Place::new("second");
    let daemon = Daemon::start(&place, CONFIG, &[]);
    let (code, out, log) = output(&mut command(&place, CONFIG, "nid0", &[]));
    assert_eq!((code, out.as_str()), (Some(1), ""));
    assert!(log.starts_with("<3>nidhaagufd: the device nid0 can't be created: "), "{log}");
    let (code, out, log) = output(&mut command(&place, CONFIG, "nid1", &[]));
    assert_eq!((code, out.as_str()), (Some(1), ""));
    assert!(log.ends_with(": another director answers there\n"), "{log}");
    assert_eq!(daemon.ask("count 0"), "ok\n0\n");
    daemon.end_by("TERM");
}

/// A device that is an interface of another kind: told as that, and left as it is.
pub fn other_interfaces() {
    let place = Place::new("interfaces");
    link::ip("tuntap add dev tap9 mode tap");
    for name in ["lo", "tap9"] {
        let (code, out, log) = output(&mut command(&place, CONFIG, name, &[]));
        assert_eq!((code, out.as_str()), (Some(1), ""));
        let expected = "expected a TUN device of one queue, or a name that no interface has";
        let words = format!("the device {name} can't be used: {expected}, got another interface");
        assert_eq!(log, format!("<3>nidhaagufd: {words}\n"));
        assert!(link::device_number(name).is_some());
    }
    link::ip("link delete tap9");
}

/// A director that was killed leaves its socket; the next one takes its place.
pub fn stale_socket() {
    let place = Place::new("stale");
    let killed = Daemon::start(&place, CONFIG, &[]);
    killed.signal("KILL");
    assert_eq!(killed.wait().0, None);
    assert!(Path::new(&place.file("sock")).exists());
    let daemon = Daemon::start(&place, CONFIG, &[]);
    assert_eq!(daemon.ask("count 0"), "ok\n0\n");
    daemon.end_by("INT");
}

/// A file that is no socket is left alone.
pub fn file_in_the_way() {
    let place = Place::new("file");
    fs::write(place.file("sock"), "precious").unwrap();
    let (code, out, log) = output(&mut command(&place, CONFIG, "nid0", &[]));
    assert_eq!((code, out.as_str()), (Some(1), ""));
    assert!(log.ends_with(": a file that isn't a socket is there already\n"), "{log}");
    assert_eq!(fs::read_to_string(place.file("sock")).unwrap(), "precious");
}

/// A director can't go on without its device, and notices at once, also when nothing comes: the clock's first second is not
/// over then, and it would look at its tick. What else the machine does may hold it up, but not each time.
pub fn deleted_device() {
    let in_time = (0..5).any(|_| time_to_notice() < Duration::from_millis(500));
    assert!(in_time, "it notices by its tick alone");
}

fn time_to_notice() -> Duration {
    let place = Place::new("deleted");
    let daemon = Daemon::start(&place, CONFIG, &[]);
    link::ip("link delete nid0");
    let deleted = Instant::now();
    let (code, out, log) = daemon.wait();
    let time = deleted.elapsed();
    assert_eq!((code, out.as_str()), (Some(1), ""));
    assert!(log.contains("\n<3>nidhaagufd: the device nid0 is gone: "), "{log}");
    assert!(!Path::new(&place.file("sock")).exists());
    time
}

/// With a fast clock: an idle connection stays for 900 s of it, then it goes and is counted.
pub fn idle_connections() {
    let place = Place::new("idle");
    let daemon = Daemon::start(&place, CONFIG, &["--clock-speed", "1000"]);
    let started = Instant::now();
    Link::open("nid0").send(&tcp((0x0A00_0001, 40_000), VIRTUAL, SYN).build());
    let opened = "nidhaaguf_packets_total{way=\"inbound\",answer=\"opened\"} 1";
    await_metric(&daemon, opened);
    await_metric(&daemon, "nidhaaguf_idle_removed_total 1");
    assert!(started.elapsed() >= Duration::from_millis(900), "removed early");
    assert_eq!(daemon.ask("count 0"), "ok\n0\n");
    daemon.signal("TERM");
    let (code, _, log) = daemon.wait();
    assert_eq!(code, Some(0));
    assert!(log.starts_with("<4>nidhaagufd: for drills only: the clock runs 1000 times"), "{log}");
}

/// The clock ticks by itself: an idle connection goes though neither a packet nor a command comes.
pub fn ticks_in_silence() {
    let place = Place::new("silence");
    let daemon = Daemon::start(&place, CONFIG, &["--clock-speed", "1000"]);
    Link::open("nid0").send(&tcp((0x0A00_0001, 40_000), VIRTUAL, SYN).build());
    await_metric(&daemon, "nidhaaguf_slots_used 1");
    std::thread::sleep(Duration::from_millis(1_200));
    daemon.signal("TERM");
    let (code, _, log) = daemon.wait();
    assert_eq!(code, Some(0));
    assert!(log.contains("; 1 removed as idle; "), "{log}");
}

/// Waiting takes no time of the processor, also where somebody watches.
pub fn idle_daemon() {
    let place = Place::new("still");
    let daemon = Daemon::start(&place, CONFIG, &[]);
    let mut watcher = daemon.connect();
    watcher.write_all(b"watch\n").unwrap();
    watcher.read_exact(&mut [0; 3]).unwrap();
    let before = daemon.processor_time();
    std::thread::sleep(Duration::from_secs(2));
    let time = daemon.processor_time() - before;
    assert!(time <= Duration::from_millis(40), "{time:?} of the processor's time in 2 s");
    daemon.end_by("INT");
}

/// Waits until the metrics have that line.
pub fn await_metric(daemon: &Daemon, line: &str) {
    wait_until(line, || daemon.text("metrics").lines().any(|found| found == line));
}
