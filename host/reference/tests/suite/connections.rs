//! Openings, phases, RST, belonging.

use crate::support::*;
use reference::data::TCP;
use reference::packets::{ACK, FIN, PSH, RST, SYN};
use reference::*;

const KEPT: Answer = Answer::Passed(0, Change::Kept);
const OPENED: Answer = Answer::Passed(0, Change::Opened);
const ENDED: Answer = Answer::Passed(0, Change::Ended);

fn opened() -> Director {
    let mut director = Director::tcp(&[1, 1], 4);
    assert_eq!(director.client_sends(0, SYN, 1), OPENED);
    director
}

/// The director with client 0's connection put into a phase.
fn in_phase(phase: u32) -> Director {
    let mut director = opened();
    director.row[0] = phase;
    assert!(director.sound());
    director
}

#[test]
fn which_flags_open() {
    for flags in 0..=255u8 {
        let mut director = Director::tcp(&[1], 1);
        let opens = flags & (SYN | ACK | RST | FIN) == SYN;
        let want = if opens { OPENED } else { Answer::Refused(12) };
        assert_eq!(director.client_sends(0, flags, 3), want, "flags {flags:02X}");
        assert_eq!(director.counts(), [u32::from(opens)]);
    }
}

#[test]
fn an_opening_fills_the_lowest_free_slot() {
    let mut director = opened();
    let (address, port) = client(0);
    assert_eq!(director.slot(0), [1, address, u32::from(port), 0, 1]);
    director.client_sends(1, SYN, 2);
    director.client_sends(2, SYN, 3);
    assert_eq!(director.client_sends(1, RST, 4), Answer::Passed(1, Change::Ended));
    assert_eq!(director.slot(1), [0; 5]);
    assert_eq!(director.client_sends(3, SYN, 5), Answer::Passed(1, Change::Opened));
    let (address, port) = client(3);
    assert_eq!(director.slot(1), [1, address, u32::from(port), 1, 5]);
    assert_eq!(director.counts(), [2, 1]);
}

#[test]
fn phases() {
    let inbound = [(1, 2), (2, 2), (3, 4), (4, 4)];
    let outbound = [(1, 3), (2, 4), (3, 3), (4, 4)];
    for (before, after) in inbound {
        let mut director = in_phase(before);
        assert_eq!(director.client_sends(0, ACK, 2), KEPT);
        assert_eq!(director.slot(0)[0], before);
        assert_eq!(director.client_sends(0, FIN | ACK, 2), KEPT);
        assert_eq!(director.slot(0)[0], after);
        assert_eq!(director.counts(), [1, 0], "a FIN lowers no count");
    }
    for (before, after) in outbound {
        let mut director = in_phase(before);
        assert_eq!(director.server_sends(0, 0, PSH, 2), KEPT);
        assert_eq!(director.slot(0)[0], before);
        assert_eq!(director.server_sends(0, 0, FIN, 2), KEPT);
        assert_eq!(director.slot(0)[0], after);
    }
}

#[test]
fn rst_is_looked_at_first() {
    for phase in 1..=4 {
        for flags in [RST, RST | ACK, RST | FIN, RST | SYN, 0xFF] {
            let mut director = in_phase(phase);
            assert_eq!(director.client_sends(0, flags, 2), ENDED);
            assert_eq!((director.slot(0), director.counts()), ([0; 5], vec![0, 0]));
            let mut director = in_phase(phase);
            assert_eq!(director.server_sends(0, 0, flags, 2), ENDED);
            assert_eq!((director.slot(0), director.counts()), ([0; 5], vec![0, 0]));
        }
    }
    assert_eq!(opened().client_sends(1, RST, 2), Answer::Refused(12), "an RST that meets none");
}

#[test]
fn an_rst_is_rewritten_and_sent() {
    let mut director = opened();
    let mut packet = client_plan(TCP, 0, RST).build();
    assert_eq!(director.inbound(&mut packet, 2), ENDED);
    let (address, port) = server_end(0);
    assert_eq!(packet[16..20], address.to_be_bytes());
    assert_eq!(packet[22..24], port.to_be_bytes());
    assert!(packets::header_verifies(&packet) && packets::transport_verifies(&packet));
}

#[test]
fn a_syn_on_a_connection_that_not_both_have_finished_is_an_ordinary_packet() {
    for phase in 1..=3 {
        let mut director = in_phase(phase);
        let walk = director.state.walk;
        assert_eq!(director.client_sends(0, SYN, 7), KEPT);
        assert_eq!(director.slot(0)[0], phase);
        assert_eq!(director.slot(0)[4], 7);
        assert_eq!((director.state.walk, director.counts()), (walk, vec![1, 0]));
        // with FIN it finishes the client
        assert_eq!(director.client_sends(0, SYN | FIN, 8), KEPT);
        assert_eq!(director.slot(0)[0], [2, 2, 4][phase as usize - 1]);
    }
}

#[test]
fn every_accepted_packet_sets_last_seen() {
    let mut director = opened();
    for (clock, inbound) in [(5, true), (6, false), (6, true), (90, false)] {
        let answer = match inbound {
            true => director.client_sends(0, ACK, clock),
            false => director.server_sends(0, 0, ACK, clock),
        };
        assert_eq!(answer, KEPT);
        assert_eq!(director.slot(0)[4], clock);
    }
}

#[test]
fn outbound_belongs_only_to_its_own_server() {
    let mut director = opened();
    assert_eq!(director.server_sends(1, 0, ACK, 1), Answer::Refused(12));
    assert_eq!(director.server_sends(1, 0, RST, 1), Answer::Refused(12));
    assert_eq!(director.counts(), [1, 0]);
    assert_eq!(director.server_sends(0, 0, ACK, 1), KEPT);
}

#[test]
fn outbound_opens_nothing() {
    let mut director = Director::tcp(&[1], 1);
    assert_eq!(director.server_sends(0, 0, SYN, 0), Answer::Refused(12));
    let mut director = Director::udp(&[1], 1);
    assert_eq!(director.server_sends(0, 0, 0, 0), Answer::Refused(12));
    assert_eq!(director.client_sends(0, 0, 0), OPENED);
    assert_eq!(director.server_sends(0, 0, 0, 0), KEPT);
}

#[test]
fn client_is_address_and_port() {
    let mut director = Director::udp(&[1], 4);
    let ends = [(5, 5), (5, 6), (6, 5), (0, 0)];
    for end in ends {
        let mut packet = packets::udp(end, VIRTUAL).build();
        assert_eq!(director.inbound(&mut packet, 0), OPENED, "{end:?}");
    }
    assert_eq!(director.slot(3), [1, 0, 0, 0, 0], "client 0:0 is a client like any other");
    for end in ends {
        let mut packet = packets::udp(end, VIRTUAL).build();
        assert_eq!(director.inbound(&mut packet, 0), KEPT, "{end:?}");
    }
}

#[test]
fn udp_stays_in_phase_1_whatever_its_bytes() {
    let mut director = Director::udp(&[1], 1);
    let mut plan = packets::udp(client(0), VIRTUAL);
    plan.data = vec![0xFF; 20];
    assert_eq!(director.inbound(&mut plan.build(), 0), OPENED);
    assert_eq!(director.inbound(&mut plan.build(), 0), KEPT);
    assert_eq!(director.slot(0)[0], 1);
}

#[test]
fn a_new_weight_does_not_move_a_present_connection() {
    let mut director = opened();
    director.weight(0, 0);
    assert_eq!(director.client_sends(0, SYN, 1), KEPT);
    assert_eq!(director.client_sends(1, SYN, 1), Answer::Passed(1, Change::Opened));
}
