//! The book: it has the connections of the library's table, and counts what became of those before.

use crate::support::*;
use live::book::{ConnectionState, Ending, ServerCounts};
use live::instance::Instance;
use live::policy::{Policy, Unknown};
use nidhaaguf::Protocol;
use random::Rng;
use reference::packets::{self, End, Plan, ACK, FIN, PSH, RST, SYN};
use std::collections::BTreeSet;
use std::time::Duration;

const SERVERS: [End; 3] = [SERVER, (0x0A02_0005, 6432), (0x0A1E_0005, 6432)];

/// A packet of a client that is told by its port.
fn of_client(port: u16, flags: u8) -> Plan {
    packets::tcp((0x0A00_0001, port), VIRTUAL, flags)
}

/// A server's packet to such a client.
fn of_server(server: usize, port: u16, flags: u8) -> Plan {
    packets::tcp(SERVERS[server], (0x0A00_0001, port), flags)
}

fn must_pass(instance: &mut Instance, packet: Plan) {
    assert!(pass(instance, &packet.build()).is_some(), "{packet:?}");
}

fn tick(instance: &mut Instance, second: u64) {
    instance.tick(Duration::from_secs(second));
}

/// The counts of a server, and of its endings those above 0.
fn counts(instance: &Instance, server: usize) -> (u64, Vec<(&'static str, u64)>, u64) {
    let ServerCounts { opened, early, .. } = instance.book().servers()[server];
    let ended = Ending::ALL.map(|by| (by.name(), instance.book().servers()[server].ended_by(by)));
    (opened, ended.into_iter().filter(|(_, times)| *times > 0).collect(), early)
}

fn states(instance: &Instance) -> Vec<&'static str> {
    instance.connections().iter().map(|seen| seen.state.name()).collect()
}

/// What the book has is what the library's table has, and each server's count is its openings without its endings.
fn must_agree(instance: &Instance) {
    let (director, book) = (instance.director(), instance.book());
    let table: BTreeSet<_> = director.connections().map(|found| found.client).collect();
    assert_eq!(book.clients().collect::<BTreeSet<_>>(), table);
    for (number, counts) in book.servers().iter().enumerate() {
        let count = u64::from(director.count(number).unwrap());
        assert_eq!(counts.opened - counts.ended.iter().sum::<u64>(), count);
        let entries = table.iter().filter(|client| book.entry(**client).unwrap().server == number);
        assert_eq!(entries.count() as u64, count);
        assert!(counts.early <= counts.ended_by(Ending::Server));
    }
    for found in director.connections() {
        let entry = book.entry(found.client).unwrap();
        assert_eq!(entry.server, found.server);
        assert!(entry.opened.unwrap() <= found.seen);
    }
    let opening =
        instance.book().clients().filter(|client| book.entry(*client).unwrap().is_opening);
    assert_eq!(opening.count(), book.opening());
}

/// A packet of one of a few clients or servers, good or damaged.
fn any_packet(random: &mut Rng, protocol: Protocol) -> Vec<u8> {
    let client = (0x0A00_0001, 1 + random.below(12) as u16);
    let flags =
        random.one_of(&[SYN, SYN, SYN | ACK, ACK, ACK | PSH, ACK | FIN, FIN, RST, SYN | FIN, 0]);
    let server = random.one_of(&SERVERS);
    let mut plan = match (protocol, random.below(3)) {
        (Protocol::Tcp, 0) => packets::tcp(server, client, flags),
        (Protocol::Tcp, _) => packets::tcp(client, VIRTUAL, flags),
        (Protocol::Udp, 0) => packets::udp(server, client),
        (Protocol::Udp, _) => packets::udp(client, VIRTUAL),
    };
    if random.permille(300) {
        plan = plan.with_options_and_data();
    }
    let mut packet = plan.build();
    if random.permille(20) {
        packet[0] = 0x60;
    }
    if random.permille(50) {
        packet.truncate(1 + random.below(packet.len() - 1));
    }
    packet
}

/// One thing that happens to a director.
pub fn happen(random: &mut Rng, instance: &mut Instance, second: &mut u64, protocol: Protocol) {
    match random.below(100) {
        0..4 => *second += random.one_of(&[1, 1, 2, 30, 119, 120, 299, 899]),
        4 => drop(instance.set_weight(random.below(3), random.below(3) as u16)),
        5 => drop(instance.set_down(random.below(3), random.below(2) == 0)),
        6 => {
            let client = format!("10.0.0.1:{}", 1 + random.below(12)).parse().unwrap();
            instance.disconnect(client);
        }
        7 if random.below(10) == 0 => drop(instance.flush(random.below(3)).unwrap()),
        _ => drop(pass(instance, &any_packet(random, protocol))),
    }
    tick(instance, *second);
}

#[test]
fn the_book_agrees_with_the_library_whatever_happens() {
    for (seed, protocol) in [(21, Protocol::Tcp), (22, Protocol::Udp), (23, Protocol::Tcp)] {
        let udp = if protocol == Protocol::Udp { "udp" } else { "tcp" };
        let mut instance = instance_of(&format!("{CONFIG}slots 9\n").replace("tcp", udp));
        if protocol == Protocol::Tcp {
            instance.set_policy(Policy { unknown: Unknown::Reset(3), opening_timeout: 29 });
        }
        let (mut random, mut second) = (Rng::new(seed), 0);
        for _ in 0..10_000 {
            happen(&mut random, &mut instance, &mut second, protocol);
            must_agree(&instance);
        }
        let all = (0..3).flat_map(|server| instance.book().servers()[server].ended);
        // else what happens isn't what it is meant to be
        let kinds = if protocol == Protocol::Tcp { 18 } else { 3 };
        assert_eq!(all.filter(|times| *times > 0).count(), kinds);
    }
}

/// A connection is opening until its client has sent something else than its SYN; what its server says changes nothing.
#[test]
fn opening_until_the_client_is_heard() {
    let mut instance = instance();
    tick(&mut instance, 5);
    must_pass(&mut instance, of_client(1, SYN));
    tick(&mut instance, 6);
    for packet in [of_client(1, SYN), of_server(0, 1, SYN | ACK), of_server(0, 1, ACK)] {
        must_pass(&mut instance, packet);
        assert_eq!(states(&instance), ["opening"]);
    }
    must_pass(&mut instance, of_client(1, ACK));
    assert_eq!(states(&instance), ["open"]);
    must_pass(&mut instance, of_client(1, SYN));
    assert_eq!(states(&instance), ["open"]);
    let seen = instance.connections()[0];
    assert_eq!((seen.opened, seen.idle(9), seen.left(Protocol::Tcp, 9)), (Some(5), 3, 897));
}

/// Each other packet of a client shows that it is there.
#[test]
fn what_opens_and_what_does_not() {
    for (flags, state) in [
        (SYN, ConnectionState::Opening),
        (SYN | PSH, ConnectionState::Opening),
        (SYN | ACK, ConnectionState::Open),
        (SYN | FIN, ConnectionState::ClientFinished),
        (FIN, ConnectionState::ClientFinished),
        (ACK, ConnectionState::Open),
        (0, ConnectionState::Open),
    ] {
        let mut instance = instance();
        for port in [1, 2] {
            must_pass(&mut instance, of_client(port, SYN));
        }
        must_pass(&mut instance, of_client(2, flags).with_options_and_data());
        let states: Vec<_> = instance.connections().iter().map(|seen| seen.state).collect();
        assert_eq!(states, [ConnectionState::Opening, state], "{flags:02x}");
    }
}

#[test]
fn finished_by_one_and_by_both() {
    let mut instance = instance();
    for port in 1..=3 {
        must_pass(&mut instance, of_client(port, SYN));
        must_pass(&mut instance, of_client(port, ACK));
    }
    must_pass(&mut instance, of_client(1, FIN | ACK));
    must_pass(&mut instance, of_server(1, 2, FIN | ACK));
    must_pass(&mut instance, of_server(2, 3, FIN | ACK));
    must_pass(&mut instance, of_client(3, FIN | ACK));
    assert_eq!(states(&instance), ["client finished", "server finished", "finished"]);
    assert_eq!(instance.connections()[2].left(Protocol::Tcp, 20), 100);
    // a server that has finished before its client was heard
    must_pass(&mut instance, of_client(4, SYN));
    must_pass(&mut instance, of_server(0, 4, FIN | ACK));
    assert_eq!((states(&instance)[3], instance.book().opening()), ("server finished", 1));
}

#[test]
fn udp_is_open_at_once() {
    let mut instance = instance_of(&CONFIG.replace("tcp", "udp"));
    must_pass(&mut instance, packets::udp((0x0A00_0001, 1), VIRTUAL));
    assert_eq!((states(&instance), instance.book().opening()), (vec!["open"], 0));
    must_pass(&mut instance, packets::udp(SERVER, (0x0A00_0001, 1)));
    assert_eq!(counts(&instance, 0), (1, vec![], 0));
    tick(&mut instance, 300);
    assert_eq!(counts(&instance, 0), (1, vec![("idle", 1)], 0));
}

/// Three connections to a server each: by whom they end is counted there.
#[test]
fn endings_by_server_and_by_whom() {
    let mut instance = instance();
    for port in 1..=9 {
        must_pass(&mut instance, of_client(port, SYN));
    }
    // clients 1, 4, 7 are at server 0; 2, 5, 8 at 1; 3, 6, 9 at 2
    tick(&mut instance, 2);
    for port in [1, 4, 2] {
        must_pass(&mut instance, of_client(port, RST));
    }
    must_pass(&mut instance, of_server(1, 5, RST | ACK));
    for port in [7, 8, 3] {
        must_pass(&mut instance, of_client(port, ACK));
    }
    tick(&mut instance, 901);
    assert_eq!(counts(&instance, 0), (3, vec![("client", 2)], 0));
    assert_eq!(counts(&instance, 1), (3, vec![("client", 1), ("server", 1)], 0));
    assert_eq!(counts(&instance, 2), (3, vec![("idle", 2)], 0));
    tick(&mut instance, 902);
    assert_eq!(counts(&instance, 0), (3, vec![("client", 2), ("idle", 1)], 0));
    assert_eq!(counts(&instance, 1), (3, vec![("client", 1), ("server", 1), ("idle", 1)], 0));
    assert_eq!(counts(&instance, 2), (3, vec![("idle", 3)], 0));
    assert_eq!(instance.counters().idle_removed, 5);
}

/// A server's reset up to a second after the opening, and no later, is early; a client's never is.
#[test]
fn early_endings() {
    for (later, early) in [(0, 1), (1, 1), (2, 0)] {
        let mut instance = instance();
        tick(&mut instance, 7);
        must_pass(&mut instance, of_client(1, SYN));
        must_pass(&mut instance, of_client(2, SYN));
        tick(&mut instance, 7 + later);
        must_pass(&mut instance, of_server(0, 1, RST | ACK));
        must_pass(&mut instance, of_client(2, RST));
        assert_eq!(counts(&instance, 0), (1, vec![("server", 1)], early), "{later} s later");
        assert_eq!(counts(&instance, 1), (1, vec![("client", 1)], 0));
    }
}

/// A port that comes back ends the finished connection and opens another, which is opening again; the weights decide where.
#[test]
fn renewed_ones_are_ended_and_opened() {
    let mut instance = instance();
    for flags in [SYN, ACK, FIN | ACK] {
        must_pass(&mut instance, of_client(1, flags));
    }
    must_pass(&mut instance, of_server(0, 1, FIN | ACK));
    assert_eq!((states(&instance), counts(&instance, 0)), (vec!["finished"], (1, vec![], 0)));
    instance.set_weight(0, 0).unwrap();
    tick(&mut instance, 3);
    must_pass(&mut instance, of_client(1, SYN));
    assert_eq!(counts(&instance, 0), (1, vec![("renewed", 1)], 0));
    assert_eq!(counts(&instance, 1), (1, vec![], 0));
    assert_eq!((states(&instance), instance.connections()[0].opened), (vec!["opening"], Some(3)));
}

/// What is no packet at all is no matter, whatever its answer is said to be.
#[test]
fn any_bytes_may_be_told() {
    use live::book::Book;
    use nidhaaguf::{Change, Passed, TakenPacket, Way};
    let (mut random, mut book) = (Rng::new(24), Book::new(Protocol::Tcp, 1));
    for _ in 0..20_000 {
        let length = random.below(80);
        let mut bytes = random.bytes(length);
        if let Some(first) = bytes.first_mut().filter(|_| random.below(2) == 0) {
            *first = 0x40 | *first & 0x0F;
        }
        let way = random.one_of(&[Way::Inbound, Way::Outbound]);
        let change = random.one_of(&[Change::Opened, Change::Kept, Change::Ended]);
        let answer = Ok(Passed { server: random.below(3), change });
        book.take(&TakenPacket { bytes: &bytes, way, answer }, 1);
    }
}
