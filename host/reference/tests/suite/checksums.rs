//! Rewriting: what changes in a packet and what does not, UDP 0 and FFFF.

use crate::support::*;
use reference::checksum;
use reference::data::{TCP, UDP};
use reference::packets::{self, Plan, Sum, ACK, SYN};
use reference::*;

/// The packet as it leaves towards server 0.
fn sent_in(plan: &Plan) -> Vec<u8> {
    let mut director = Director::new(plan.protocol, 1, &[1], 1);
    let mut packet = plan.build();
    assert_eq!(director.inbound(&mut packet, 0), Answer::Passed(0, Change::Opened));
    packet
}

/// The packet as it leaves towards client 0, whose connection is open.
fn sent_out(plan: &Plan) -> Vec<u8> {
    let mut director = Director::new(plan.protocol, 1, &[1], 1);
    director.client_sends(0, SYN, 0);
    let mut packet = plan.build();
    assert_eq!(director.outbound(&mut packet, 0), Answer::Passed(0, Change::Kept));
    packet
}

#[test]
fn inbound_leaves_as_if_built_for_the_server() {
    for protocol in [TCP, UDP] {
        let plan = client_plan(protocol, 0, SYN).with_options_and_data();
        let want = Plan { destination: server_end(0), ..plan.clone() };
        assert_eq!(sent_in(&plan), want.build());
    }
}

#[test]
fn outbound_leaves_as_if_built_by_the_service() {
    let tcp = packets::tcp(server_end(0), client(0), ACK);
    let udp = packets::udp(server_end(0), client(0));
    for plan in [tcp, udp].map(Plan::with_options_and_data) {
        let want = Plan { source: VIRTUAL, ..plan.clone() };
        assert_eq!(sent_out(&plan), want.build());
    }
}

#[test]
fn udp_checksum_0_stays_0() {
    let inbound = Plan { transport_sum: Sum::Given(0), ..client_plan(UDP, 0, 0) };
    assert_eq!(sent_in(&inbound)[26..28], [0, 0]);
    let mut outbound = packets::udp(server_end(0), client(0));
    outbound.transport_sum = Sum::Given(0);
    assert_eq!(sent_out(&outbound)[26..28], [0, 0]);
}

#[test]
fn tcp_checksum_0_is_edited() {
    let plan = Plan { transport_sum: Sum::Given(0), ..client_plan(TCP, 0, SYN) };
    let want = checksum::edit_endpoint(0, VIRTUAL, server_end(0));
    assert_ne!(want, 0);
    assert_eq!(sent_in(&plan)[36..38], want.to_be_bytes());
}

/// The incoming checksum whose edit towards server 0 comes to 0.
fn sum_that_comes_to_0() -> u16 {
    (1..=0xFFFF).find(|&sum| checksum::edit_endpoint(sum, VIRTUAL, server_end(0)) == 0).unwrap()
}

#[test]
fn udp_result_0_is_written_ffff_and_tcp_result_0_is_not() {
    let transport_sum = Sum::Given(sum_that_comes_to_0());
    let udp = Plan { transport_sum, ..client_plan(UDP, 0, 0) };
    assert_eq!(sent_in(&udp)[26..28], [0xFF, 0xFF]);
    let tcp = Plan { transport_sum, ..client_plan(TCP, 0, SYN) };
    assert_eq!(sent_in(&tcp)[36..38], [0, 0]);
}

#[test]
fn udp_checksum_ffff_is_edited() {
    let plan = Plan { transport_sum: Sum::Given(0xFFFF), ..client_plan(UDP, 0, 0) };
    let want = checksum::edit_endpoint(0xFFFF, VIRTUAL, server_end(0));
    assert_eq!(sent_in(&plan)[26..28], want.to_be_bytes());
}

#[test]
fn a_right_udp_ffff_leaves_right() {
    // data chosen so that the right checksum is FFFF (a computed 0)
    let mut plan = client_plan(UDP, 0, 0);
    plan.data = vec![0, 0];
    let bytes = plan.build();
    plan.data = bytes[26..28].to_vec();
    assert_eq!(plan.build()[26..28], [0xFF, 0xFF]);
    let sent = sent_in(&plan);
    assert!(packets::transport_verifies(&sent));
    assert_eq!(sent, Plan { destination: server_end(0), ..plan }.build());
}

#[test]
fn all_transport_sums_verify_exactly_as_they_did() {
    let mut tcp = client_plan(TCP, 0, SYN);
    let mut udp = client_plan(UDP, 0, 0);
    for sum in 0..=0xFFFF {
        tcp.transport_sum = Sum::Given(sum);
        let before = packets::transport_verifies(&tcp.build());
        assert_eq!(packets::transport_verifies(&sent_in(&tcp)), before, "TCP {sum:04X}");
        udp.transport_sum = Sum::Given(sum);
        let before = packets::transport_verifies(&udp.build());
        let sent = sent_in(&udp);
        assert!(sum == 0 || packets::transport_verifies(&sent) == before, "UDP {sum:04X}");
        assert_eq!(sent[26..28] == [0, 0], sum == 0);
    }
}

#[test]
fn equation_3_against_whole_sums() {
    let mut word = 1u32;
    for _ in 0..2_000 {
        word = word.wrapping_mul(1_664_525).wrapping_add(1_013_904_223);
        let (old, new) = ((word >> 16) as u16, word as u16);
        let rest = 0x1234_u64;
        let before = !checksum::fold(rest + u64::from(old));
        let after = !checksum::fold(rest + u64::from(new));
        assert_eq!(checksum::edit_word(before, old, new), after);
    }
}

#[test]
fn the_packet_may_be_longer_than_any_total_length() {
    let mut plan = client_plan(UDP, 0, 0);
    plan.data = vec![3; 65_535 - 28];
    plan.trailing = vec![4; 70_000];
    let want = Plan { destination: server_end(0), ..plan.clone() };
    assert_eq!(sent_in(&plan), want.build());
}

#[test]
fn equation_3_where_sums_are_0_or_ffff() {
    // the sum is 0 only where all three parts are: FFFF stays FFFF
    assert_eq!(checksum::edit_word(0xFFFF, 0xFFFF, 0x0000), 0xFFFF);
    // a word that stays makes FFFF into 0, and leaves every other checksum
    assert_eq!(checksum::edit_word(0xFFFF, 0x1234, 0x1234), 0x0000);
    for sum in 0..0xFFFF {
        assert_eq!(checksum::edit_word(sum, 0x1234, 0x1234), sum);
    }
}

#[test]
fn word_by_word_is_the_same_as_all_at_once() {
    let edges = [0x0000, 0x0001, 0x7FFF, 0xFFFE, 0xFFFF];
    let pairs: Vec<(u16, u16)> =
        edges.iter().flat_map(|&old| edges.map(|new| (old, new))).collect();
    for sum in edges {
        for &a in &pairs {
            for &b in &pairs {
                let parts = [!sum, !a.0, a.1, !b.0, b.1];
                let whole = !checksum::fold(parts.iter().map(|&part| u64::from(part)).sum());
                let stepped = checksum::edit_word(checksum::edit_word(sum, a.0, a.1), b.0, b.1);
                assert_eq!(stepped, whole);
            }
        }
    }
}
