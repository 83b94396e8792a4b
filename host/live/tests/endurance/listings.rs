//! The longest answer that there is, of a full table.

use crate::daemon::{Daemon, PATIENCE};
use crate::link::{say, Link};
use crate::model::{CONFIG, VIRTUAL};
use crate::place::Place;
use crate::service::Service;
use reference::packets::{tcp, ACK, SYN};
use std::io::{Read, Write};
use std::time::{Duration, Instant};

const SLOTS: u16 = 4_096;

fn full(name: &str) -> Service {
    let place = Place::new(name);
    let daemon = Daemon::start(&place, &CONFIG.replace("slots 64", "slots 4096"), &[]);
    let service = Service { daemon, link: Link::open("nid0"), place };
    (1..=SLOTS).for_each(|port| assert!(service.send(port, SYN) < 2));
    service
}

/// It reaches a client that takes longer than it may for an answer of which it reads nothing.
pub fn slow_reader() {
    let service = full("slow-reader");
    let mut stream = service.daemon.connect();
    stream.write_all(b"connections --json\n").unwrap();
    let (begin, mut answer, mut bytes) = (Instant::now(), Vec::new(), vec![0; 1 << 15]);
    loop {
        std::thread::sleep(Duration::from_millis(130));
        match stream.read(&mut bytes).unwrap() {
            0 => break,
            length => answer.extend_from_slice(&bytes[..length]),
        }
    }
    assert!(begin.elapsed() > live::control::connection::PATIENCE, "it isn't slow");
    let text = String::from_utf8(answer).unwrap();
    let listed = text.strip_prefix("ok\n").unwrap();
    assert_eq!(crate::json::jq(listed, ".connections | length"), SLOTS.to_string());
    service.daemon.end_by("TERM");
}

/// Packets pass while it is asked for without a pause. What else the machine does may hold some of them up.
pub fn packets_meanwhile() {
    let service = full("listings");
    let packet = tcp((0x0A00_0001, SLOTS), VIRTUAL, ACK).build();
    let times = |asks: bool| {
        let mut times: Vec<Duration> = (0..60).map(|_| time_of(&service, &packet, asks)).collect();
        times.sort();
        times
    };
    let (quiet, asked) = (times(false), times(true));
    say(&format!(
        "a packet: median {:?}, worst {:?}; while 4096 connections are listed: median {:?}, worst {:?}",
        quiet[30], quiet[59], asked[30], asked[59]
    ));
    assert!(asked[30] < Duration::from_millis(20), "{asked:?}");
    service.daemon.end_by("TERM");
}

/// How long a packet takes through the daemon, right after a listing was asked for or not.
fn time_of(service: &Service, packet: &[u8], asks: bool) -> Duration {
    let mut stream = service.daemon.connect();
    if asks {
        stream.write_all(b"connections --json\n").unwrap();
    }
    let begin = Instant::now();
    service.link.send(packet);
    assert!(service.link.receive(PATIENCE).is_some());
    let time = begin.elapsed();
    if asks {
        let mut answer = Vec::new();
        stream.read_to_end(&mut answer).unwrap();
        assert!(answer.ends_with(b"]}\n"));
    }
    time
}
