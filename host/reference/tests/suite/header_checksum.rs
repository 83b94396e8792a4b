//! Refusal 20: "An invalid header checksum [..], tested right after the other reasons of 6 and before 7."

use crate::support::*;
use reference::book::Way;
use reference::connection::{idle_limit, NONE_FINISHED};
use reference::data::{TCP, UDP};
use reference::packets::{self, Plan, ACK, SYN};
use reference::*;

const KINDS: [(u8, Way); 4] =
    [(TCP, Way::Inbound), (UDP, Way::Inbound), (TCP, Way::Outbound), (UDP, Way::Outbound)];

/// The connection of client 1 is idle at this clock, and that of client 0 is not.
fn clock(protocol: u8) -> u32 {
    idle_limit(protocol, NONE_FINISHED)
}

/// Both clients have connections to server 0.
fn director(protocol: u8) -> Director {
    let mut director = Director::new(protocol, 1, &[1, 0], 2);
    director.client_sends(1, SYN, 0);
    director.client_sends(0, SYN, clock(protocol) - 1);
    director
}

/// A packet of client 0's connection.
fn right((protocol, way): (u8, Way)) -> Plan {
    match (way, protocol) {
        (Way::Inbound, _) => client_plan(protocol, 0, ACK),
        (Way::Outbound, UDP) => packets::udp(server_end(0), client(0)),
        (Way::Outbound, _) => packets::tcp(server_end(0), client(0), ACK),
    }
}

fn take(director: &mut Director, way: Way, packet: &mut [u8], clock: u32) -> Answer {
    match way {
        Way::Inbound => director.inbound(packet, clock),
        Way::Outbound => director.outbound(packet, clock),
    }
}

/// The refusal of a packet, which leaves state, row and packet as they were; 0 where it is kept.
fn refused((protocol, way): (u8, Way), packet: &[u8]) -> u8 {
    let (mut director, clock) = (director(protocol), clock(protocol));
    let before = director.clone();
    let mut bytes = packet.to_vec();
    match take(&mut director, way, &mut bytes, clock) {
        Answer::Refused(number) => {
            assert_eq!((director, &bytes[..]), (before, packet));
            number
        }
        Answer::Passed(0, Change::Kept) => {
            assert_eq!((director.state.clock, director.counts()), (clock, vec![1, 0]));
            0
        }
        other => panic!("{other:?}"),
    }
}

fn spoiled(plan: &Plan) -> Vec<u8> {
    let mut bytes = plan.build();
    packets::spoil_header(&mut bytes, 7);
    bytes
}

#[test]
fn any_other_checksum_is_refused() {
    for kind in KINDS {
        let mut bytes = right(kind).build();
        let own = [bytes[10], bytes[11]];
        for sum in (0..=u16::MAX).map(u16::to_be_bytes) {
            bytes[10..12].copy_from_slice(&sum);
            let want = if sum == own { 0 } else { 20 };
            assert_eq!(refused(kind, &bytes), want, "{kind:?} {sum:?}");
        }
    }
}

#[test]
fn a_bit_of_the_header_turned() {
    for way in [Way::Inbound, Way::Outbound] {
        let whole = right((TCP, way)).build();
        for bit in 0..160 {
            let mut bytes = whole.clone();
            bytes[bit / 8] ^= 0x80 >> (bit % 8);
            // another version; 13, 1 or 4 words of header; a total length of neither 40 nor 32
            let is_malformed = matches!(bit, 0..=5 | 7 | 16..=27 | 29..=31);
            let want = if is_malformed { 6 } else { 20 };
            assert_eq!(refused((TCP, way), &bytes), want, "bit {bit}");
        }
    }
}

#[test]
fn options_are_under_the_checksum() {
    for kind in KINDS {
        let mut bytes = Plan { ip_options: vec![1; 40], ..right(kind) }.build();
        assert_eq!(refused(kind, &bytes), 0);
        for at in 20..60 {
            bytes[at] ^= 1;
            assert_eq!(refused(kind, &bytes), 20, "{kind:?} byte {at}");
            bytes[at] ^= 1;
        }
    }
}

/// Each with a right checksum gets its own number, and with a wrong one 20.
#[test]
fn before_7_8_9_and_10() {
    for kind in KINDS {
        let right = right(kind);
        let other = if kind.0 == TCP { UDP } else { TCP };
        let short = if kind.0 == TCP { 39 } else { 27 };
        let none = (0, 0);
        let (source, destination) = match kind.1 {
            Way::Inbound => (right.source, none),
            Way::Outbound => (none, right.destination),
        };
        let later = [
            (Plan { fragment: 0x2000, ..right.clone() }, 7),
            (Plan { fragment: 0x0001, ..right.clone() }, 7),
            (Plan { written_protocol: Some(1), ..right.clone() }, 8),
            (Plan { protocol: other, ..right.clone() }, 8),
            (Plan { total_length: Some(short), ..right.clone() }, 9),
            (Plan { data_offset: Some(4), udp_length: Some(9), ..right.clone() }, 9),
            (Plan { source, destination, ..right.clone() }, 10),
        ];
        for (plan, number) in later {
            assert_eq!(refused(kind, &plan.build()), number, "{kind:?}");
            assert_eq!(refused(kind, &spoiled(&plan)), 20, "{kind:?}, before {number}");
        }
    }
}

/// With a right checksum the packet gets the number; with a wrong one 20, and nothing changes.
fn is_before(number: u8, director: &Director, way: Way, plan: &Plan, clock: u32) {
    let mut mended = director.clone();
    let answer = take(&mut mended, way, &mut plan.build(), clock);
    assert_eq!(answer, Answer::Refused(number), "{way:?}");
    let mut after = director.clone();
    let answer = take(&mut after, way, &mut spoiled(plan), clock);
    assert_eq!((answer, &after), (Answer::Refused(20), director), "{way:?}, before {number}");
}

#[test]
fn before_11_to_14() {
    for kind in KINDS {
        is_before(11, &director(kind.0), kind.1, &right(kind), 0);
    }
    let empty = Director::tcp(&[1], 1);
    for way in [Way::Inbound, Way::Outbound] {
        is_before(12, &empty, way, &right((TCP, way)), 1);
    }
    let opening = client_plan(TCP, 2, SYN);
    is_before(13, &director(TCP), Way::Inbound, &opening, clock(TCP) - 1);
    is_before(14, &Director::tcp(&[0], 1), Way::Inbound, &opening, 1);
}

/// 6, whether the checksum is wrong or right.
#[test]
fn behind_each_other_reason_of_6() {
    for kind in KINDS {
        let right = right(kind);
        let length = right.build().len() as u16;
        let malformed = [
            Plan { version: Some(6), ..right.clone() },
            Plan { header_words: Some(4), ..right.clone() },
            Plan { total_length: Some(19), ..right.clone() },
            Plan { total_length: Some(length + 1), ..right.clone() },
        ];
        for plan in malformed {
            let mut bytes = spoiled(&plan);
            assert_eq!(refused(kind, &bytes), 6, "{plan:?}");
            packets::mend_header(&mut bytes);
            assert_eq!(refused(kind, &bytes), 6, "{plan:?}");
        }
        let whole = spoiled(&right);
        for length in 0..whole.len() {
            assert_eq!(refused(kind, &whole[..length]), 6, "{kind:?} {length} bytes");
        }
        assert_eq!(refused(kind, &whole), 20);
    }
}

#[test]
fn checksums_0000_and_ffff_are_both_valid_where_the_rest_sums_to_ffff() {
    for kind in KINDS {
        let mut bytes = right(kind).build();
        bytes[4..6].fill(0);
        bytes[10..12].fill(0);
        let rest = checksum::fold(checksum::sum(&bytes[..20]));
        bytes[4..6].copy_from_slice(&(!rest).to_be_bytes());
        assert_eq!(refused(kind, &bytes), 0);
        bytes[10..12].fill(0xFF);
        assert_eq!(refused(kind, &bytes), 0);
        bytes[11] = 0xFE;
        assert_eq!(refused(kind, &bytes), 20);
    }
}

/// All that is neither port, length, data offset nor flag.
#[test]
fn a_bit_of_the_transport_part_turned_is_accepted() {
    for kind in KINDS {
        let whole = Plan { data: vec![3; 5], ..right(kind) }.build();
        let free: Vec<usize> = match kind.0 {
            TCP => (24..32).chain(34..whole.len()).collect(),
            _ => (26..whole.len()).collect(),
        };
        for at in free {
            for bit in 0..8 {
                let mut bytes = whole.clone();
                bytes[at] ^= 1 << bit;
                assert_eq!(refused(kind, &bytes), 0, "{kind:?} byte {at}");
            }
        }
    }
}
