//! Refusals 5 to 10 at their edges. Each leaves state, row and packet as they were.

use crate::support::*;
use reference::data::{TCP, UDP};
use reference::packets::{self, Plan, Sum, SYN};
use reference::*;

/// Inbound and refused, with nothing changed; the clock handed in is later than the stored one.
fn refused(protocol: u8, packet: &[u8]) -> u8 {
    let mut director = Director::new(protocol, 1, &[1, 1], 2);
    director.client_sends(5, SYN, 10);
    let before = director.clone();
    let mut bytes = packet.to_vec();
    match director.inbound(&mut bytes, 5_000) {
        Answer::Refused(number) => {
            assert_eq!(director, before);
            assert_eq!(bytes, packet);
            number
        }
        Answer::Passed(..) => 0,
        other => panic!("{other:?}"),
    }
}

fn syn() -> Plan {
    packets::tcp(client(0), VIRTUAL, SYN)
}

fn datagram() -> Plan {
    packets::udp(client(0), VIRTUAL)
}

#[test]
fn refusal_5_no_server_of_that_number() {
    let mut director = Director::tcp(&[1, 1], 1);
    for number in [2, 63, 64, u32::MAX] {
        let before = director.clone();
        assert_eq!(director.weight(number, 3), Answer::Refused(5));
        assert_eq!(director.count(number), Answer::Refused(5));
        assert_eq!(director, before);
    }
    assert_eq!(director.weight(1, 3), Answer::Done);
    assert_eq!(director.count(1), Answer::Number(0));
}

#[test]
fn refusal_6_short_packets() {
    let whole = syn().build();
    for length in 0..whole.len() {
        assert_eq!(refused(TCP, &whole[..length]), 6, "{length} bytes");
    }
    assert_eq!(refused(TCP, &whole), 0);
}

#[test]
fn refusal_6_version_and_header_length() {
    for version in 0..16 {
        let want = if version == 4 { 0 } else { 6 };
        let plan = Plan { version: Some(version), ..syn() };
        assert_eq!(refused(TCP, &plan.build()), want, "version {version}");
    }
    for words in 0..5 {
        let mut bytes = syn().build();
        bytes[0] = 0x40 | words;
        packets::mend_header(&mut bytes);
        assert_eq!(refused(TCP, &bytes), 6, "{words} words");
    }
}

#[test]
fn refusal_6_total_length() {
    // below the header length: 24 bytes of header
    let with_options = Plan { ip_options: vec![1; 4], ..syn() };
    for (total, want) in [(0, 6), (20, 6), (23, 6), (24, 9), (43, 9), (44, 0), (45, 6)] {
        let plan = Plan { total_length: Some(total), ..with_options.clone() };
        assert_eq!(refused(TCP, &plan.build()), want, "total {total}");
    }
    let most = Plan { total_length: Some(65_535), ..syn() };
    assert_eq!(refused(TCP, &most.build()), 6);
}

#[test]
fn refusal_7_fragments() {
    let words = [
        (0x0000, 0),
        (0x4000, 0),
        (0x8000, 0),
        (0xC000, 0),
        (0x2000, 7),
        (0x6000, 7),
        (0x0001, 7),
        (0x1000, 7),
        (0x5FFF, 7),
        (0xFFFF, 7),
    ];
    for (fragment, want) in words {
        assert_eq!(refused(TCP, &Plan { fragment, ..syn() }.build()), want, "{fragment:04X}");
    }
}

#[test]
fn refusal_8_protocol() {
    for protocol in 0..=255 {
        let want = if protocol == TCP { 0 } else { 8 };
        let plan = Plan { written_protocol: Some(protocol), ..syn() };
        assert_eq!(refused(TCP, &plan.build()), want, "protocol {protocol}");
    }
    assert_eq!(refused(UDP, &syn().build()), 8);
    assert_eq!(refused(UDP, &datagram().build()), 0);
}

#[test]
fn refusal_9_tcp() {
    for payload in 0..20u16 {
        let plan = Plan { total_length: Some(20 + payload), ..syn() };
        assert_eq!(refused(TCP, &plan.build()), 9, "payload {payload}");
    }
    for offset in 0..16 {
        // 24 payload bytes: 5 and 6 words fit
        let plan = Plan { data_offset: Some(offset), data: vec![0; 4], ..syn() };
        let want = if matches!(offset, 5 | 6) { 0 } else { 9 };
        assert_eq!(refused(TCP, &plan.build()), want, "offset {offset}");
    }
    let odd = Plan { data_offset: Some(6), data: vec![0; 3], ..syn() };
    assert_eq!(refused(TCP, &odd.build()), 9, "23 bytes are no 6 words");
    // trailing bytes are no payload
    let trailing = Plan { data_offset: Some(6), trailing: vec![0; 40], ..syn() };
    assert_eq!(refused(TCP, &trailing.build()), 9);
}

#[test]
fn refusal_9_udp() {
    for payload in 0..8u16 {
        let mut plan = Plan { total_length: Some(20 + payload), ..datagram() };
        plan.udp_length = Some(payload);
        assert_eq!(refused(UDP, &plan.build()), 9, "payload {payload}");
    }
    for (length, want) in [(0, 9), (7, 9), (8, 9), (10, 9), (11, 0), (12, 9), (65_535, 9)] {
        let plan = Plan { udp_length: Some(length), data: vec![1; 3], ..datagram() };
        assert_eq!(refused(UDP, &plan.build()), want, "UDP length {length}");
    }
    let trailing = Plan { udp_length: Some(9), trailing: vec![0; 1], ..datagram() };
    assert_eq!(refused(UDP, &trailing.build()), 9);
}

#[test]
fn refusal_10_inbound() {
    let others = [(VIRTUAL.0, VIRTUAL.1 + 1), (VIRTUAL.0 + 1, VIRTUAL.1), (0, 0), server_end(0)];
    for destination in others {
        assert_eq!(refused(TCP, &packets::tcp(client(0), destination, SYN).build()), 10);
        assert_eq!(refused(UDP, &packets::udp(client(0), destination).build()), 10);
    }
}

#[test]
fn refusal_10_outbound() {
    let mut director = Director::tcp(&[1, 1], 1);
    director.client_sends(0, SYN, 0);
    let (address, port) = server_end(0);
    // zeros: the address and port of every unused place
    let others = [(address, port + 1), server_end(2), (0, 0), VIRTUAL, client(0)];
    for source in others {
        let before = director.clone();
        let bytes = packets::tcp(source, client(0), packets::ACK).build();
        let mut packet = bytes.clone();
        assert_eq!(director.outbound(&mut packet, 9_000), Answer::Refused(10));
        assert_eq!((director.clone(), packet), (before, bytes));
    }
}

#[test]
fn transport_checksums_are_not_judged() {
    for sum in [0, 1, 0x8000, 0xFFFF] {
        let transport_sum = Sum::Given(sum);
        assert_eq!(refused(TCP, &Plan { transport_sum, ..syn() }.build()), 0);
        assert_eq!(refused(UDP, &Plan { transport_sum, ..datagram() }.build()), 0);
    }
}
