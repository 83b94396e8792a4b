//! Which call a packet gets, and what is counted of it.

use crate::support::*;
use live::counters::WAYS;
use live::instance::Instance;
use nidhaaguf::{Change, Refusal, Way};
use reference::packets::{self, ACK, RST, SYN};
use std::time::Duration;

#[test]
fn the_way_is_told_by_the_destination() {
    let packet = syn(1);
    let mut other = packet.clone();
    other[19] = 11;
    for (packet, expected) in [
        (&packet[..], [1, 0]),
        (&packet[..20], [1, 0]),
        (&other, [0, 1]),
        (&other[..20], [0, 1]),
        (&other[..19], [1, 0]),
        (&other[..1], [1, 0]),
    ] {
        let mut instance = instance();
        pass(&mut instance, packet);
        let counters = &instance.counters().packets;
        let found = WAYS.map(|(way, _)| counters.taken(way));
        assert_eq!(found, expected, "{packet:?}");
    }
}

#[test]
fn answers_are_counted_by_way() {
    let mut instance = instance();
    let written = pass(&mut instance, &syn(1)).unwrap();
    assert_eq!(written[16..20], [10, 1, 0, 5]);
    let client = (0x0A00_0001, 1);
    for (packet, passes) in [
        (packets::tcp(SERVER, client, SYN | ACK).build(), true),
        (packets::tcp(client, VIRTUAL, RST).build(), true),
        (packets::tcp(client, VIRTUAL, ACK).build(), false),
        (packets::tcp(SERVER, client, ACK).build(), false),
        (vec![0; 7], false),
        (with_a_turned_bit(packets::tcp(client, VIRTUAL, SYN).build()), false),
        (with_a_turned_bit(packets::tcp(SERVER, client, ACK).build()), false),
    ] {
        assert_eq!(pass(&mut instance, &packet).is_some(), passes, "{packet:?}");
    }
    let counters = &instance.counters().packets;
    assert_eq!(counters.accepted(Way::Inbound, Change::Opened), 1);
    assert_eq!(counters.accepted(Way::Outbound, Change::Kept), 1);
    assert_eq!(counters.accepted(Way::Inbound, Change::Ended), 1);
    assert_eq!(counters.accepted(Way::Inbound, Change::Kept), 0);
    for (way, _) in WAYS {
        assert_eq!(counters.refused(way, Refusal::NoConnection), 1);
        assert_eq!(counters.refused(way, Refusal::BadChecksum), 1);
    }
    assert_eq!(counters.refused(Way::Inbound, Refusal::MalformedHeader), 1);
    let line = "inbound 1 opened, 0 kept, 1 ended, 3 refused; outbound 0 opened, 1 kept, 0 ended, 2 refused; \
                0 of IPv6; 0 removed as idle; 0 not taken by the device";
    assert_eq!(instance.counters().to_string(), line);
}

#[test]
fn a_tick_removes_idle_connections_and_counts_them() {
    let mut instance = instance();
    for port in [1, 2] {
        assert!(pass(&mut instance, &syn(port)).is_some());
    }
    let changes = instance.changes();
    instance.tick(Duration::from_millis(899_999));
    assert_eq!((instance.director().clock(), instance.director().used()), (899, 2));
    assert_eq!(instance.changes(), changes);
    instance.tick(Duration::from_secs(900));
    assert_eq!((instance.director().clock(), instance.director().used()), (900, 0));
    assert_eq!(instance.counters().idle_removed, 2);
    assert!(instance.changes() > changes);
}

#[test]
fn only_what_changes_the_table_is_a_change() {
    let mut instance = instance();
    let mut last = instance.changes();
    let mut grew = |instance: &Instance| {
        std::mem::replace(&mut last, instance.changes()) != instance.changes()
    };
    pass(&mut instance, &syn(1));
    assert!(grew(&instance));
    pass(&mut instance, &syn(1));
    pass(&mut instance, &[1, 2, 3]);
    assert!(!grew(&instance));
    pass(&mut instance, &reset(1));
    assert!(grew(&instance));
    instance.set_weight(0, 7).unwrap();
    assert!(grew(&instance));
    assert_eq!(instance.set_weight(3, 7), Err(Refusal::NoServer));
    assert!(!grew(&instance));
}
