//! Packets of unknown connections, connections that stay opening, and floods of these, against the real daemon.

use crate::counts::Counts;
use crate::daemon::{wait_until, Daemon, PATIENCE};
use crate::endings::await_metric;
use crate::link::Link;
use crate::model::{labels, CONFIG, SERVERS, VIRTUAL};
use crate::place::Place;
use live::segments::Segment;
use reference::packets::{header_verifies, tcp, transport_verifies, Plan, Sum, ACK, FIN, RST, SYN};
use std::time::{Duration, Instant};

/// Nothing comes that is on its way by then.
const SOON: Duration = Duration::from_millis(100);
/// Its 30 s of a connection that is opening take 3 s.
const FASTER: [&str; 2] = ["--clock-speed", "10"];
const TIMEOUT: Duration = Duration::from_secs(3);

/// The configuration with other lines for what it says of unknown connections and late openings.
fn config(lines: &str) -> String {
    CONFIG.replace("unknown drop\nopening-timeout 0\n", lines)
}

fn client(number: u16) -> (u32, u16) {
    (0x0A00_0001, 20_000 + number)
}

fn counts(daemon: &Daemon) -> Counts {
    Counts::of_metrics(&daemon.text("metrics"))
}

fn state(daemon: &Daemon, server: usize, state: &str) -> u64 {
    counts(daemon).get(&format!("nidhaaguf_connections{{{},state=\"{state}\"}}", labels(server)))
}

/// The sum of both servers.
fn ended(daemon: &Daemon, by: &str) -> u64 {
    let counts = counts(daemon);
    let of =
        |server| counts.get(&format!("nidhaaguf_endings_total{{{},by=\"{by}\"}}", labels(server)));
    of(0) + of(1)
}

/// Sends a packet, and gives what comes back.
fn exchange(link: &Link, packet: &Plan) -> Option<Vec<u8>> {
    link.send(&packet.build());
    link.receive(PATIENCE)
}

/// Of both ways: a client's data, and a server's late segment. Each is answered to its sender, by the numbers that it has.
pub fn unknown_connections() {
    let place = Place::new("unknown");
    let daemon = Daemon::start(&place, &config(""), &[]);
    let link = Link::open("nid0");
    for packet in [
        Plan { data: vec![7; 100], ..tcp(client(1), VIRTUAL, ACK) },
        tcp(client(1), VIRTUAL, FIN).with_options_and_data(),
        tcp(SERVERS[1], client(1), SYN | ACK),
        tcp(SERVERS[0], client(2), FIN | ACK).with_options_and_data(),
    ] {
        let answer = exchange(&link, &packet).expect("no answer comes");
        assert!(header_verifies(&answer) && transport_verifies(&answer));
        assert_eq!(answer, Segment::answer_to(&packet.build()).unwrap().bytes());
        let (from, to) = (packet.destination.0, packet.source.0);
        assert_eq!(answer[12..20], [from.to_be_bytes(), to.to_be_bytes()].concat());
    }
    for packet in [
        tcp(client(1), VIRTUAL, RST),
        Plan { transport_sum: Sum::Given(7), ..tcp(client(1), VIRTUAL, ACK) },
        tcp(client(1), (VIRTUAL.0, 80), ACK),
    ] {
        link.send(&packet.build());
    }
    assert_eq!(link.receive(SOON), None);
    await_metric(&daemon, "nidhaaguf_resets_sent_total 4");
    assert_eq!(counts(&daemon).get("nidhaaguf_resets_unsent_total"), 0);
    daemon.end_by("TERM");
}

/// Five in a second and no more; and by a reload none.
pub fn limited_resets() {
    let place = Place::new("limited");
    let daemon = Daemon::start(&place, &config("unknown reset 5\n"), &[]);
    let link = Link::open("nid0");
    let packet = tcp(client(1), VIRTUAL, ACK).build();
    let begin = Instant::now();
    (0..100).for_each(|_| link.send(&packet));
    let received = std::iter::from_fn(|| link.receive(SOON)).count() as u64;
    let seconds = begin.elapsed().as_secs() + 2;
    assert!((5..=5 * seconds).contains(&received), "{received} in {:?}", begin.elapsed());
    await_metric(&daemon, &format!("nidhaaguf_resets_sent_total {received}"));
    await_metric(&daemon, &format!("nidhaaguf_resets_unsent_total {}", 100 - received));
    // in a later second others may be sent
    wait_until("another reset", || {
        link.send(&packet);
        link.receive(SOON).is_some()
    });
    std::fs::write(place.file("nidhaaguf.conf"), config("unknown drop\nopening-timeout 5\n"))
        .unwrap();
    assert_eq!(daemon.text("reload"), "unknown reset 5 -> drop\nopening-timeout 30 -> 5\n");
    std::thread::sleep(Duration::from_millis(1_100));
    link.send(&packet);
    assert_eq!(link.receive(SOON), None);
    std::fs::write(place.file("nidhaaguf.conf"), config("")).unwrap();
    daemon.signal("HUP");
    let mut daemon = daemon;
    daemon.await_log("<5>nidhaagufd: unknown drop -> reset 200, by reload\n");
    daemon.await_log("<5>nidhaagufd: opening-timeout 5 -> 30, by reload\n");
    assert!(exchange(&link, &tcp(client(1), VIRTUAL, ACK)).is_some());
    daemon.end_by("TERM");
}

/// Takes what has come, and looks at none of it.
fn drain(link: &Link) {
    while link.receive(Duration::ZERO).is_some() {}
}

/// Opens connections of clients from `first` on.
fn open(link: &Link, first: u16, clients: u16) {
    for number in first..first + clients {
        exchange(link, &tcp(client(number), VIRTUAL, SYN)).expect("it isn't opened");
    }
}

/// Whether a test that must see something within its time has done so; what else the machine does may hold it up, but not each time.
fn must_be_in_time(test: impl Fn() -> bool) {
    assert!((0..5).any(|_| test()), "the machine is too slow for this");
}

/// What is opening goes after its time, with a reset to its server; what was heard of stays. And nobody is asked anything.
pub fn late_openings() {
    must_be_in_time(|| {
        let place = Place::new("late-openings");
        let daemon = Daemon::start(&place, &config(""), &FASTER);
        let link = Link::open("nid0");
        let begin = Instant::now();
        open(&link, 0, 6);
        exchange(&link, &tcp(client(0), VIRTUAL, ACK)).expect("it isn't kept");
        let (seen, early) = (opening(&daemon), begin.elapsed() < TIMEOUT);
        await_metric(&daemon, "nidhaaguf_slots_used 1");
        must_have_taken_its_time(begin);
        assert_eq!(ended(&daemon, "opening-timeout"), 5);
        let resets: Vec<_> = std::iter::from_fn(|| link.receive(SOON)).collect();
        assert_eq!(resets.len(), 5);
        resets.iter().for_each(|reset| must_be_a_reset_to_a_server(reset));
        // what is open is no opening, however long it says nothing
        std::thread::sleep(TIMEOUT);
        assert!(exchange(&link, &tcp(client(0), VIRTUAL, ACK)).is_some());
        daemon.end_by("TERM");
        early && seen == 5
    });
}

/// A tick of the clock is a tenth of a second.
fn must_have_taken_its_time(begin: Instant) {
    let time = begin.elapsed();
    assert!(time >= TIMEOUT - Duration::from_millis(100), "{time:?}");
}

fn must_be_a_reset_to_a_server(packet: &[u8]) {
    assert!(packet[33] == RST && header_verifies(packet) && transport_verifies(packet));
    assert!(SERVERS.iter().any(|server| packet[16..20] == server.0.to_be_bytes()));
}

fn opening(daemon: &Daemon) -> u64 {
    state(daemon, 0, "opening") + state(daemon, 1, "opening")
}

/// 50,000 SYNs: the table is full, sessions go on, and new ones are served again within the timeout.
pub fn flood_of_openings() {
    let place = Place::new("flood-of-openings");
    let config = config("").replace("slots 64", "slots 4096");
    let daemon = Daemon::start(&place, &config, &FASTER);
    let link = Link::open("nid0");
    open(&link, 0, 2);
    [0, 1].iter().for_each(|&number| must_go_on(&link, client(number)));
    for number in 0..50_000_u32 {
        // what the queue has no room for is lost, as it would be on any link
        let _ = link.offer(&tcp((0x0B00_0000 + number, 1_024), VIRTUAL, SYN).build());
        drain(&link);
    }
    let full = "nidhaaguf_refusals_total{way=\"inbound\",number=\"13\"}";
    wait_until("the table is full", || counts(&daemon).get(full) > 0);
    [0, 1].iter().for_each(|&number| must_go_on(&link, client(number)));
    await_metric(&daemon, "nidhaaguf_slots_used 2");
    drain(&link);
    open(&link, 2, 1);
    let told = counts(&daemon);
    let of = |name, server| told.get(&format!("nidhaaguf_{name}{{{}}}", labels(server)));
    let sum = |name| of(name, 0) + of(name, 1);
    assert_eq!(sum("openings_total") - ended(&daemon, "opening-timeout"), 3);
    assert_eq!(sum("server_connections"), 3);
    daemon.end_by("TERM");
}

/// A packet of an open connection passes, among others.
fn must_go_on(link: &Link, client: (u32, u16)) {
    drain(link);
    link.send(&tcp(client, VIRTUAL, ACK).build());
    let is_of_client = |packet: Vec<u8>| packet[20..22] == client.1.to_be_bytes();
    wait_until("the session's packet", || link.receive(SOON).is_some_and(is_of_client));
}

/// Opening before a take-over and after it, and before a restart and after it; ended in time.
pub fn openings_that_are_handed_on() {
    must_be_in_time(|| {
        let place = Place::new("handed-on");
        let mut daemon = Daemon::start(&place, &config(""), &FASTER);
        let mut link = Link::open("nid0");
        let begin = Instant::now();
        open(&link, 0, 4);
        exchange(&link, &tcp(client(3), VIRTUAL, ACK)).expect("it isn't kept");
        let next = Daemon::take_over(&place, &config(""), &FASTER);
        assert_eq!(std::mem::replace(&mut daemon, next).wait().0, Some(0));
        let taken_over = opening(&daemon);
        // heard of there, and no longer opening
        exchange(&link, &tcp(client(2), VIRTUAL, ACK)).expect("it isn't kept");
        daemon.signal("TERM");
        assert_eq!(daemon.wait().0, Some(0));
        daemon = Daemon::start(&place, &config(""), &FASTER);
        link = Link::open("nid0");
        let (resumed, early) = (opening(&daemon), begin.elapsed() < TIMEOUT);
        await_metric(&daemon, "nidhaaguf_slots_used 2");
        must_have_taken_its_time(begin);
        assert_eq!(ended(&daemon, "opening-timeout"), 2);
        let resets = std::iter::from_fn(|| link.receive(SOON)).count();
        daemon.end_by("TERM");
        early && (taken_over, resumed, resets) == (3, 2, 2)
    });
}

/// What the kernel says by IPv6 into the device is no refusal, and what its queue has no room for is told.
pub fn noise_and_drops() {
    let place = Place::new("noise");
    let daemon = Daemon::start(&place, &config(""), &[]);
    let link = Link::open("nid0");
    let mut noise = vec![0x60, 0, 0, 0, 0, 8, 58, 255];
    noise.resize(48, 0);
    (0..10).for_each(|_| link.send(&noise));
    (0..3).for_each(|_| link.send(&[0x50; 40]));
    await_metric(&daemon, "nidhaaguf_ipv6_packets_total 10");
    let malformed = "nidhaaguf_refusals_total{way=\"outbound\",number=\"6\"}";
    wait_until("refusals", || counts(&daemon).get(malformed) == 3);
    // more than the queue of 500 has room for, while nobody reads it
    daemon.stop();
    (0..700).for_each(|_| _ = link.offer(&noise));
    daemon.signal("CONT");
    let drops = "nidhaaguf_device_drops_total{device=\"nid0\"}";
    wait_until("drops", || counts(&daemon).get(drops) > 100);
    let told = counts(&daemon).get(drops);
    wait_until("the others", || counts(&daemon).get("nidhaaguf_ipv6_packets_total") == 710 - told);
    daemon.signal("TERM");
    let (code, _, log) = daemon.wait();
    assert_eq!(code, Some(0));
    assert!(log.contains(&format!("; {} of IPv6; ", 710 - told)), "{log}");
}
