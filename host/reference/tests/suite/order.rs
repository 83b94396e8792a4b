//! "The lowest-placed failing test in that order answers", and what each refusal changes.

use crate::support::*;
use reference::data::{TCP, UDP};
use reference::packets::{self, ACK, SYN};
use reference::*;

type PacketCall = fn(&mut Director, &mut [u8], u32) -> Answer;
type Mend = fn(&mut [u8]);

/// A packet that fails 6, 20 and 7 to 10 at once, and what mends it for the next refusal, one after another.
fn worst_packet() -> (Vec<u8>, [(Mend, u8); 5]) {
    let mut bytes = packets::udp((1, 1), (1, 1)).build();
    (bytes[0], bytes[6]) = (0x55, 0x20);
    assert!(!packets::header_verifies(&bytes));
    let mends: [(Mend, u8); 5] = [
        (|_| {}, 6),
        (|bytes| bytes[0] = 0x45, 20),
        (packets::mend_header, 7),
        (|bytes| set_and_mend(bytes, 6, 0), 8),
        (|bytes| set_and_mend(bytes, 9, TCP), 9),
    ];
    (bytes, mends)
}

fn set_and_mend(bytes: &mut [u8], at: usize, value: u8) {
    bytes[at] = value;
    packets::mend_header(bytes);
}

/// `stray` belongs to no connection and opens none.
fn in_order(take: PacketCall, stray: Vec<u8>) {
    let mut director = Director::tcp(&[1], 1);
    director.tick(100);
    let mut unsound = director.clone();
    unsound.state.servers[0].count = 1;
    let (mut bytes, mends) = worst_packet();
    assert_eq!(take(&mut unsound, &mut bytes.clone(), 50), Answer::Refused(15));
    for (mend, number) in mends {
        mend(&mut bytes);
        assert_eq!(take(&mut director, &mut bytes.clone(), 50), Answer::Refused(number));
    }
    let mut elsewhere = packets::tcp((1, 1), (1, 1), ACK).build();
    assert_eq!(take(&mut director, &mut elsewhere, 50), Answer::Refused(10));
    assert_eq!(take(&mut director, &mut stray.clone(), 50), Answer::Refused(11));
    assert_eq!(take(&mut director, &mut stray.clone(), 100), Answer::Refused(12));
}

#[test]
fn packet_order_15_6_20_7_8_9_10_11_12() {
    in_order(Director::inbound, client_plan(TCP, 0, ACK).build());
    in_order(Director::outbound, packets::tcp(server_end(0), client(0), ACK).build());
}

#[test]
fn order_of_12_13_14() {
    let mut director = Director::tcp(&[0], 1);
    // not opening, and all weights 0: 12
    assert_eq!(director.client_sends(0, ACK, 0), Answer::Refused(12));
    assert_eq!(director.client_sends(0, SYN, 0), Answer::Refused(14));
    director.weight(0, 1);
    assert_eq!(director.client_sends(0, SYN, 0), Answer::Passed(0, Change::Opened));
    director.weight(0, 0);
    // full and all weights 0: not opening 12, opening 13
    assert_eq!(director.client_sends(1, ACK, 0), Answer::Refused(12));
    assert_eq!(director.client_sends(1, SYN, 0), Answer::Refused(13));
    // a present connection follows its server whatever the weights are
    assert_eq!(director.client_sends(0, ACK, 0), Answer::Passed(0, Change::Kept));
}

#[test]
fn weight_and_count_order_15_5() {
    let mut director = Director::tcp(&[1], 1);
    assert_eq!(director.weight(1, 0), Answer::Refused(5));
    director.row[4] = 1;
    let before = director.clone();
    assert_eq!(director.weight(1, 0), Answer::Refused(15));
    assert_eq!(director.count(1), Answer::Refused(15));
    assert_eq!(director, before);
}

#[test]
fn tick_order_15_11() {
    let mut director = Director::tcp(&[1], 1);
    director.tick(9);
    assert_eq!(director.tick(8), Answer::Refused(11));
    director.row[4] = 1;
    let before = director.clone();
    assert_eq!(director.tick(8), Answer::Refused(15));
    assert_eq!(director, before);
}

/// Three slots: one idle at 900 (client 0), one live (client 1).
fn with_an_idle_one() -> Director {
    let mut director = Director::tcp(&[1, 1], 2);
    director.client_sends(0, SYN, 0);
    director.client_sends(1, SYN, 10);
    director
}

#[test]
fn refusal_12_stores_the_clock_and_removes_the_idle() {
    let mut director = with_an_idle_one();
    let mut ticked = director.clone();
    let bytes = client_plan(TCP, 0, ACK).build();
    let mut packet = bytes.clone();
    assert_eq!(director.inbound(&mut packet, 900), Answer::Refused(12));
    assert_eq!(ticked.tick(900), Answer::Number(1));
    assert_eq!((&director, packet), (&ticked, bytes));
    assert_eq!(director.counts(), [0, 1]);
    // outbound too
    let mut later = director.clone();
    assert_eq!(later.server_sends(0, 1, ACK, 910), Answer::Refused(12));
    assert_eq!(later.counts(), [0, 0]);
    assert_eq!(later.state.clock, 910);
}

#[test]
fn refusal_13_stores_the_clock() {
    let mut director = with_an_idle_one();
    let mut ticked = director.clone();
    let bytes = client_plan(TCP, 2, SYN).build();
    let mut packet = bytes.clone();
    assert_eq!(director.inbound(&mut packet, 899), Answer::Refused(13));
    assert_eq!(ticked.tick(899), Answer::Number(0));
    assert_eq!((director, packet), (ticked, bytes));
}

#[test]
fn refusal_14_stores_the_clock_and_removes_the_idle() {
    for scheduler in 1..=4 {
        let mut director = Director::new(UDP, scheduler, &[1, 1], 2);
        director.client_sends(0, 0, 0);
        director.client_sends(1, 0, 10);
        director.weight(0, 0);
        director.weight(1, 0);
        let mut ticked = director.clone();
        let bytes = client_plan(UDP, 2, 0).build();
        let mut packet = bytes.clone();
        assert_eq!(director.inbound(&mut packet, 300), Answer::Refused(14));
        assert_eq!(ticked.tick(300), Answer::Number(1));
        assert_eq!((director, packet), (ticked, bytes));
    }
}

#[test]
fn refusal_11_changes_nothing() {
    let mut director = with_an_idle_one();
    let before = director.clone();
    assert_eq!(director.tick(9), Answer::Refused(11));
    assert_eq!(director.client_sends(0, ACK, 9), Answer::Refused(11));
    assert_eq!(director.server_sends(0, 0, ACK, 0), Answer::Refused(11));
    assert_eq!(director, before);
}

#[test]
fn the_clock_of_a_refused_packet_is_not_stored() {
    let mut director = Director::tcp(&[1], 1);
    let mut stray = packets::tcp(client(0), (1, 1), SYN).build();
    assert_eq!(director.inbound(&mut stray, 1_000), Answer::Refused(10));
    assert_eq!(director.tick(0), Answer::Number(0));
}

#[test]
fn the_last_second_is_accepted_again_and_again() {
    let mut director = Director::tcp(&[1], 1);
    assert_eq!(director.tick(u32::MAX), Answer::Number(0));
    assert_eq!(director.client_sends(0, SYN, u32::MAX), Answer::Passed(0, Change::Opened));
    assert_eq!(director.tick(u32::MAX), Answer::Number(0));
    assert_eq!(director.tick(u32::MAX - 1), Answer::Refused(11));
}
