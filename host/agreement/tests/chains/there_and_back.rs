//! The last server is the first virtual end: the packet leaves as it came, but that FFFF leaves as 0000.

use crate::chain::{plan, Packet, CLIENT, KINDS};
use agreement::call::hex;
use agreement::choose::sums::{give_header_sum, make_transport_verify};
use agreement::many::singly::Way;
use reference::data::{TCP, UDP};
use reference::header::CHECKSUM_AT;
use reference::packets::{self, End, Plan, Sum};

const VIRTUAL: End = (0xC000_020A, 5432);
const BETWEEN: End = (0x0A01_0005, 6432);
const ENDS: [End; 3] = [VIRTUAL, BETWEEN, VIRTUAL];

/// The checksums next to FFFF, and 0 itself: each leaves as it came.
const OTHERS: [u16; 3] = [0xFFFE, 0x0000, 0x0001];

fn full_plan(kind: (u8, Way)) -> Plan {
    plan(kind, CLIENT, &ENDS).with_options_and_data()
}

/// The packet leaves as the other one, and both verify.
fn leaves_as(packet: &Packet, wanted: &Packet) {
    let left = packet.through(&ENDS);
    assert_eq!(hex(&left.bytes), hex(&wanted.bytes), "from {packet:?}");
    for bytes in [&packet.bytes, &left.bytes] {
        assert!(packets::header_verifies(bytes) && packets::transport_verifies(bytes));
    }
}

#[test]
fn right_packets_leave_as_they_came() {
    for kind in KINDS {
        let (way, client) = (kind.1, CLIENT);
        let plan = full_plan(kind);
        let packet = Packet { way, client, bytes: plan.build() };
        leaves_as(&packet, &packet);
        // between the two directors it is another packet
        let (half, between) = match way {
            Way::Inbound => (&ENDS[..2], Plan { destination: BETWEEN, ..plan }),
            Way::Outbound => (&ENDS[1..], Plan { source: BETWEEN, ..plan }),
        };
        assert_eq!(packet.through(half).bytes, between.build());
    }
}

/// The identification is chosen so that a header checksum is valid.
fn with_header_checksum(kind: (u8, Way), checksum: u16) -> Packet {
    let mut bytes = full_plan(kind).build();
    give_header_sum(&mut bytes, checksum);
    Packet { way: kind.1, client: CLIENT, bytes }
}

/// What a valid header checksum leaves as, for both protocols and ways.
fn header_checksum_leaves_as(came: u16, leaves: u16) {
    for kind in KINDS {
        let packet = with_header_checksum(kind, came);
        assert_eq!(packet.header_checksum(), came);
        leaves_as(&packet, &packet.with_word(CHECKSUM_AT, leaves));
    }
}

#[test]
fn a_valid_header_checksum_of_ffff_leaves_as_0000() {
    header_checksum_leaves_as(0xFFFF, 0x0000);
    OTHERS.iter().for_each(|&other| header_checksum_leaves_as(other, other));
}

/// Two bytes of data are chosen so that a transport checksum is valid.
fn with_transport_checksum(kind: (u8, Way), checksum: u16) -> Packet {
    let plan = Plan { transport_sum: Sum::Given(checksum), ..full_plan(kind) };
    let mut bytes = plan.build();
    make_transport_verify(&mut bytes, &plan);
    Packet { way: kind.1, client: CLIENT, bytes }
}

/// What a valid transport checksum leaves as, both ways.
fn transport_checksum_leaves_as(protocol: u8, came: u16, leaves: u16) {
    for way in [Way::Inbound, Way::Outbound] {
        let packet = with_transport_checksum((protocol, way), came);
        assert_eq!(packet.transport_checksum(), came);
        leaves_as(&packet, &packet.with_word(packet.transport_checksum_at(), leaves));
    }
}

#[test]
fn a_valid_tcp_checksum_of_ffff_leaves_as_0000() {
    transport_checksum_leaves_as(TCP, 0xFFFF, 0x0000);
    OTHERS.iter().for_each(|&other| transport_checksum_leaves_as(TCP, other, other));
}

#[test]
fn every_udp_checksum_leaves_as_it_came() {
    transport_checksum_leaves_as(UDP, 0xFFFF, 0xFFFF);
    OTHERS.iter().for_each(|&other| transport_checksum_leaves_as(UDP, other, other));
}
