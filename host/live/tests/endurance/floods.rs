//! Packets without a pause, and what must go on meanwhile.

use crate::daemon::{Daemon, PATIENCE};
use crate::damage::damaged;
use crate::link::{self, Link};
use crate::model::{CONFIG, VIRTUAL};
use crate::place::Place;
use crate::rig::Rig;
use random::Rng;
use reference::packets::{tcp, ACK, SYN};
use std::sync::atomic::{AtomicBool, Ordering};
use std::time::{Duration, Instant};

/// Clients with a connection each, and so slots: the most that there can be.
const CLIENTS: u16 = 4_096;
/// Packets of a flood in a row, about as many as one call takes; then it pauses for a millisecond, else to send them would
/// take a processor of its own.
const IN_A_ROW: usize = 256;
/// Fewer than the device's queue takes.
const BATCH: usize = 200;
/// Within this time 99 of 100 answers must come, in one of so many measurements.
const IN_TIME: Duration = Duration::from_millis(20);
const MEASUREMENTS: usize = 10;

/// Commands without a pause take nothing from the packets: each is passed and counted as the model says.
pub fn commands_while_packets_pass() {
    let mut rig = Rig::start("commands");
    let mut random = Rng::new(14);
    let packets: Vec<_> = (0..20_000).map(|_| damaged(&mut random)).collect();
    let (stop, socket) = (AtomicBool::new(false), rig.daemon.socket.clone());
    let commands = std::thread::scope(|scope| {
        let asker = scope.spawn(|| ask_without_a_pause(&socket, &stop));
        rig.send(&packets);
        stop.store(true, Ordering::Relaxed);
        asker.join().unwrap()
    });
    assert!(commands > 20, "only {commands} commands");
    rig.end_all();
    rig.daemon.end_by("TERM");
}

/// Commands that change nothing, on one connection after another; tells how many.
fn ask_without_a_pause(socket: &str, stop: &AtomicBool) -> usize {
    let commands = ["status", "weight 0 2", "metrics", "count 1", "weight 9 9"];
    let asked = commands.iter().cycle().take_while(|_| !stop.load(Ordering::Relaxed));
    asked.map(|command| assert!(!crate::daemon::ask(socket, command).is_empty())).count()
}

/// Runs something while packets are sent into the device without an end.
fn under_a_flood<T>(link: &Link, packet: &[u8], work: impl FnOnce() -> T) -> T {
    let stop = AtomicBool::new(false);
    std::thread::scope(|scope| {
        scope.spawn(|| {
            while !stop.load(Ordering::Relaxed) {
                for _ in 0..IN_A_ROW {
                    // what the queue has no room for is lost, as it would be on any link
                    let _ = link.offer(packet);
                }
                std::thread::sleep(Duration::from_millis(1));
            }
        });
        // also where the work panics: else the flood would never end
        let _stops = Stops(&stop);
        work()
    })
}

/// Sets a flag in the end.
pub struct Stops<'a>(pub &'a AtomicBool);

impl Drop for Stops<'_> {
    fn drop(&mut self) {
        self.0.store(true, Ordering::Relaxed);
    }
}

/// A full table and a flood of packets of its last client: of 100 times `status` answers 99 within 20 ms, and SIGTERM ends
/// the daemon. What else the machine does may spoil a measurement; a director that is too slow is so in all of them.
pub fn status_under_a_flood() {
    let place = Place::new("flood");
    let daemon = Daemon::start(&place, CONFIG, &["--slots", "4096"]);
    let link = Link::open("nid0");
    fill_table(&daemon, &link);
    let packet = tcp(client(CLIENTS - 1), VIRTUAL, ACK).build();
    under_a_flood(&link, &packet, || {
        let in_time =
            (0..MEASUREMENTS).any(|_| measure_status(&daemon).is_some_and(|late| late <= IN_TIME));
        assert!(in_time, "status is late {MEASUREMENTS} times");
        daemon.end_by("TERM");
    });
}

/// The 99th percentile of the times of `status`; None where too few packets came for a flood.
fn measure_status(daemon: &Daemon) -> Option<Duration> {
    let (before, started) = (kept(daemon), Instant::now());
    let mut times: Vec<_> = (0..300).map(|_| time_of_status(daemon)).collect();
    let rate = (kept(daemon) - before) as f64 / started.elapsed().as_secs_f64();
    times.sort();
    let [median, late, last] = [149, 296, 299].map(|place| times[place]);
    let words = format!("median {median:.1?}, 99th percentile {late:.1?}, last {last:.1?}");
    link::say(&format!("status under {rate:.0} packets a second: {words}"));
    (rate > 10_000.0).then_some(late)
}

fn client(number: u16) -> (u32, u16) {
    (0x0A00_0001, 10_000 + number)
}

/// A connection of each client.
fn fill_table(daemon: &Daemon, link: &Link) {
    let numbers: Vec<u16> = (0..CLIENTS).collect();
    for batch in numbers.chunks(BATCH) {
        for number in batch {
            link.send(&tcp(client(*number), VIRTUAL, SYN).build());
        }
        let written = batch.iter().map_while(|_| link.receive(PATIENCE)).count();
        assert_eq!(written, batch.len());
    }
    let status = daemon.text("status");
    assert!(status.contains(", 4096 of 4096 slots used, "), "{status}");
}

/// Packets of connections so far.
fn kept(daemon: &Daemon) -> u64 {
    let name = "nidhaaguf_packets_total{way=\"inbound\",answer=\"kept\"}";
    crate::counts::Counts::of_metrics(&daemon.text("metrics")).get(name)
}

fn time_of_status(daemon: &Daemon) -> Duration {
    let asked = Instant::now();
    assert!(daemon.text("status").starts_with("service 192.0.2.10:5432 tcp"));
    asked.elapsed()
}

/// The device goes while packets come.
pub fn device_deleted_under_a_flood() {
    let place = Place::new("deleted");
    let daemon = Daemon::start(&place, CONFIG, &[]);
    let link = Link::open("nid0");
    let packet = tcp(client(0), VIRTUAL, SYN).build();
    under_a_flood(&link, &packet, || {
        assert!(daemon.text("status").starts_with("service "));
        link::ip("link delete nid0");
        let (code, _, log) = daemon.wait();
        assert_eq!(code, Some(1), "{log}");
        assert!(log.contains("\n<3>nidhaagufd: the device nid0 is gone: "), "{log}");
    });
}
