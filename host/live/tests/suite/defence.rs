//! Packets of unknown connections, and connections that are never more than opening.

use crate::support::*;
use live::book::Ending;
use live::instance::Instance;
use live::packet::{ACK, FIN, RST, SYN};
use live::policy::{Policy, Unknown};
use live::segments::Segment;
use nidhaaguf::{Refusal, Trace, Way};
use reference::packets::{self, Plan, Sum};
use std::os::unix::net::UnixDatagram;
use std::time::Duration;

fn instance_with(unknown: Unknown, opening_timeout: u32) -> Instance {
    let mut instance = instance();
    instance.set_policy(Policy { unknown, opening_timeout });
    instance
}

/// A packet of a client without a connection.
fn unknown(port: u16) -> Plan {
    packets::tcp((0x0A00_0001, port), VIRTUAL, ACK)
}

fn tick(instance: &mut Instance, second: u64) {
    instance.tick(Duration::from_secs(second));
}

/// Hands packets to the instance together, as a device would that has them all; gives how many a call took, and what was written.
fn pass_all(instance: &mut Instance, packets: &[Vec<u8>]) -> (Vec<u32>, Vec<Vec<u8>>) {
    let (link, device) = UnixDatagram::pair().unwrap();
    link.set_nonblocking(true).unwrap();
    let (mut taken, mut written, mut trace) = (Vec::new(), Vec::new(), Trace::new(256));
    // few, so that the socket has room for them
    assert!(packets.len() <= 8);
    packets.iter().for_each(|packet| assert!(link.send(packet).is_ok()));
    let mut left = packets.len() as u32;
    while left > 0 {
        taken.push(instance.serve(&device, &mut trace, left).unwrap().taken);
        left -= taken.last().unwrap();
        let mut buffer = [0; 2_048];
        while let Ok(length) = link.recv(&mut buffer) {
            written.push(buffer[..length].to_vec());
        }
    }
    (taken, written)
}

/// Both ways: a client's data of no connection, and a server's late segment.
#[test]
fn unknown_packets_are_answered_at_once() {
    let mut instance = instance_with(Unknown::Reset(200), 0);
    let late = packets::tcp(SERVER, (0x0A00_0001, 9), FIN | ACK).with_options_and_data().build();
    let packets = [unknown(1).build(), syn(2), late, unknown(3).build()];
    let (taken, written) = pass_all(&mut instance, &packets);
    // each call ends behind one that is answered
    assert_eq!(taken, [1, 2, 1]);
    let reset = |packet: &[u8]| Segment::answer_to(packet).unwrap().bytes().to_vec();
    let mut opened = syn(2);
    instance_with(Unknown::Drop, 0).director().clone().inbound(&mut opened, 0).unwrap();
    assert_eq!(written, [reset(&packets[0]), opened, reset(&packets[2]), reset(&packets[3])]);
    assert_eq!((instance.counters().resets_sent, instance.counters().resets_unsent), (3, 0));
    // they are refused all the same
    let packets = &instance.counters().packets;
    assert_eq!(packets.refused(Way::Inbound, Refusal::NoConnection), 2);
    assert_eq!(packets.refused(Way::Outbound, Refusal::NoConnection), 1);
}

#[test]
fn what_is_not_answered() {
    let mut instance = instance_with(Unknown::Reset(200), 0);
    let reset = packets::tcp((0x0A00_0001, 1), VIRTUAL, RST | ACK).build();
    let damaged = Plan { transport_sum: Sum::Given(1), ..unknown(1) }.build();
    let elsewhere = packets::tcp((0x0A00_0001, 1), (VIRTUAL.0, 80), ACK).build();
    let (_, written) = pass_all(&mut instance, &[reset, damaged, elsewhere, vec![0; 7]]);
    assert_eq!((written.len(), instance.counters().resets_sent), (0, 0));
    let mut instance = instance_with(Unknown::Drop, 0);
    let (taken, written) = pass_all(&mut instance, &[unknown(1).build(), unknown(2).build()]);
    assert_eq!((taken, written.len()), (vec![2], 0));
    assert_eq!((instance.counters().resets_sent, instance.counters().resets_unsent), (0, 0));
}

/// A full table and a service without weights refuse openings with other numbers, and these aren't answered.
#[test]
fn refused_openings_are_not_answered() {
    let mut instance = instance_of(&format!("{CONFIG}slots 1\n"));
    instance.set_policy(Policy { unknown: Unknown::Reset(200), opening_timeout: 0 });
    assert_eq!(pass_all(&mut instance, &[syn(1), syn(2)]).1.len(), 1);
    (0..3).for_each(|server| assert!(instance.set_weight(server, 0).is_ok()));
    pass(&mut instance, &reset(1));
    assert_eq!((pass(&mut instance, &syn(2)), instance.counters().resets_sent), (None, 0));
}

/// Three in a second: the others are counted, and the next second begins anew. A call ends early for no more than three.
#[test]
fn resets_are_limited_by_second() {
    let mut instance = instance_with(Unknown::Reset(3), 0);
    let packets: Vec<_> = (1..=5).map(|port| unknown(port).build()).collect();
    for second in 1..=3 {
        tick(&mut instance, second);
        let (taken, written) = pass_all(&mut instance, &packets);
        assert_eq!((taken, written.len()), (vec![1, 1, 1, 2], 3));
        let (taken, written) = pass_all(&mut instance, &packets);
        assert_eq!((taken, written.len()), (vec![5], 0));
    }
    let counters = instance.counters();
    assert_eq!((counters.resets_sent, counters.resets_unsent), (9, 21));
}

/// Packets that can't be answered make a call end early no more often than resets are sent; what can be answered then, is.
#[test]
fn unanswered_packets_do_not_end_every_call() {
    let mut instance = instance_with(Unknown::Reset(3), 0);
    let resets: Vec<_> =
        (1..=5).map(|port| packets::tcp((0x0A00_0001, port), VIRTUAL, RST).build()).collect();
    assert_eq!(pass_all(&mut instance, &resets).0, [1, 1, 1, 2]);
    let (taken, written) = pass_all(&mut instance, &[unknown(1).build(), unknown(2).build()]);
    assert_eq!((taken, written.len()), (vec![2], 2));
}

/// What a flush has asked both ends of is answered beyond the limit.
#[test]
fn answers_to_an_operators_question_are_beyond_the_limit() {
    let mut instance = instance_with(Unknown::Reset(1), 0);
    for port in 1..=6 {
        assert!(pass(&mut instance, &syn(port)).is_some());
    }
    assert_eq!((instance.flush(0), sent(&mut instance).len()), (Ok(2), 6));
    let packets: Vec<_> = (1..=8).map(|port| unknown(20 + port).build()).collect();
    assert_eq!(pass_all(&mut instance, &packets).1.len(), 5);
    tick(&mut instance, 1);
    assert_eq!(pass_all(&mut instance, &packets).1.len(), 1);
}

/// Opened at 10 and never more than opening: still there at 39, gone at 40. One that was heard of stays.
#[test]
fn late_openings_are_ended() {
    let mut instance = instance_with(Unknown::Reset(200), 30);
    tick(&mut instance, 10);
    for port in [1, 2, 3] {
        assert!(pass(&mut instance, &syn(port)).is_some());
    }
    assert!(pass(&mut instance, &unknown(2).build()).is_some());
    tick(&mut instance, 39);
    // its SYN again, and its server's answer, don't help
    assert!(pass(&mut instance, &syn(1)).is_some());
    assert!(
        pass(&mut instance, &packets::tcp(SERVER, (0x0A00_0001, 1), SYN | ACK).build()).is_some()
    );
    assert!(pass(&mut instance, &syn(4)).is_some());
    assert_eq!((instance.director().used(), sent(&mut instance).len()), (4, 0));
    tick(&mut instance, 40);
    let clients: Vec<_> =
        instance.connections().iter().map(|seen| seen.connection.client.port()).collect();
    assert_eq!(clients, [2, 4]);
    let ended = |server: usize| instance.book().servers()[server].ended_by(Ending::OpeningTimeout);
    assert_eq!([0, 1, 2].map(ended), [1, 0, 1]);
    // to the servers alone, and no question to anybody
    let servers = ["10.1.0.5:6432", "10.30.0.5:6432"].map(|at| at.parse().unwrap());
    let clients = ["10.0.0.1:1", "10.0.0.1:3"].map(|at| at.parse().unwrap());
    let expected =
        [0, 1].map(|place| Segment::reset(clients[place], servers[place]).bytes().to_vec());
    assert_eq!(sent(&mut instance), expected);
    tick(&mut instance, 69);
    assert_eq!(instance.director().used(), 1);
}

#[test]
fn without_a_timeout_openings_stay() {
    let mut instance = instance_with(Unknown::Reset(200), 0);
    assert!(pass(&mut instance, &syn(1)).is_some());
    tick(&mut instance, 899);
    assert_eq!(instance.director().used(), 1);
    // until they are idle
    tick(&mut instance, 900);
    let counts = &instance.book().servers()[0];
    assert_eq!((counts.ended_by(Ending::Idle), counts.ended_by(Ending::OpeningTimeout)), (1, 0));
}

/// The largest table, all of it opening: it goes at once, and packets pass in between.
#[test]
fn a_flood_of_openings_goes_in_parts() {
    let mut instance = instance_with(Unknown::Reset(200), 30);
    (1..=4_096).for_each(|port| assert!(pass(&mut instance, &syn(port)).is_some()));
    assert_eq!(pass(&mut instance, &syn(5_000)), None);
    let now = Duration::from_secs(30);
    for part in 1..=16 {
        assert_eq!(
            (instance.director().used(), sent(&mut instance).len()),
            (4_096 - 256 * (part - 1), if part == 1 { 0 } else { 256 })
        );
        instance.tick(now);
        assert_eq!(instance.until_tick(now).is_zero(), part < 16);
    }
    let counts = instance.book().servers().iter();
    let ended = counts.map(|counts| counts.ended_by(Ending::OpeningTimeout)).sum::<u64>();
    assert_eq!((instance.director().used(), ended), (0, 4_096));
    assert!(pass(&mut instance, &syn(5_000)).is_some());
}

/// One that is heard of while others are ended is late no more.
#[test]
fn openings_may_be_heard_of_at_the_last_moment() {
    let mut instance = instance_with(Unknown::Drop, 30);
    (1..=300).for_each(|port| assert!(pass(&mut instance, &syn(port)).is_some()));
    tick(&mut instance, 30);
    assert_eq!(instance.director().used(), 44);
    assert!(pass(&mut instance, &unknown(300).build()).is_some());
    tick(&mut instance, 30);
    assert_eq!((instance.director().used(), instance.connections()[0].state.name()), (1, "open"));
}
