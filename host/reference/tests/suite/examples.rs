//! "Examples to hold against": P1 to P11 and the unmarked ones.

use crate::support::*;
use reference::data::{TCP, UDP};
use reference::packets::{self, SYN};
use reference::*;

const ENDED: Answer = Answer::Refused(12);

#[test]
fn p1_weighted_round_robin_4_3_2() {
    let mut director = Director::new(TCP, 2, &[4, 3, 2], 18);
    let cycle = [0, 0, 1, 0, 1, 2, 0, 1, 2];
    assert_eq!(picks(&mut director, 0, 9), cycle);
    assert_eq!(picks(&mut director, 9, 9), cycle);
}

#[test]
fn p2_weighted_round_robin_2_4() {
    let mut director = Director::new(TCP, 2, &[2, 4], 6);
    assert_eq!(picks(&mut director, 0, 6), [1, 0, 1, 1, 0, 1]);
}

#[test]
fn p3_round_robin_skips_weight_0() {
    let mut director = Director::new(TCP, 1, &[1, 0, 1], 4);
    assert_eq!(picks(&mut director, 0, 4), [0, 2, 0, 2]);
}

#[test]
fn p4_least_connection() {
    let mut director = Director::new(TCP, 3, &[1, 0, 1], 10);
    director.fill(&[3, 0, 1]);
    assert_eq!(picks(&mut director, 0, 1), [2]);
}

#[test]
fn p5_weighted_least_connection() {
    let mut director = Director::new(TCP, 4, &[4, 1, 2], 10);
    director.fill(&[2, 1, 1]);
    assert_eq!(picks(&mut director, 0, 1), [0]);
}

#[test]
fn p6_cross_products_not_integer_division() {
    let mut director = Director::new(TCP, 4, &[1, 3], 10);
    director.fill(&[1, 2]);
    assert_eq!(picks(&mut director, 0, 1), [1]);
}

#[test]
fn p7_every_weight_0() {
    for scheduler in 1..=4 {
        let mut director = Director::new(TCP, scheduler, &[0, 0], 2);
        let before = director.clone();
        assert_eq!(director.client_sends(0, SYN, 0), Answer::Refused(14));
        assert_eq!(director, before, "walk unmoved, scheduler {scheduler}");
    }
}

#[test]
fn p8_checksum_edit() {
    assert_eq!(checksum::edit_word(0xDD2F, 0x5555, 0x3285), 0x0000);
    assert_eq!(checksum::udp_written(0x0000), 0xFFFF);
}

#[test]
fn p9_udp_idle() {
    let mut director = Director::udp(&[1], 1);
    director.client_sends(0, 0, 100);
    assert_eq!(director.tick(399), Answer::Number(0));
    assert_eq!(director.count(0), Answer::Number(1));
    assert_eq!(director.tick(400), Answer::Number(1));
    assert_eq!(director.count(0), Answer::Number(0));
}

#[test]
fn p10_tcp_phase_4_idle() {
    let mut director = Director::tcp(&[1], 1);
    director.state.clock = 100;
    let (address, port) = client(0);
    director.place(0, [4, address, u32::from(port), 0, 100]);
    let mut later = director.clone();
    assert_eq!(director.client_sends(0, packets::ACK, 219), Answer::Passed(0, Change::Kept));
    assert_eq!(later.client_sends(0, packets::ACK, 220), ENDED);
    assert_eq!(later.slot(0), [0; 5]);
}

#[test]
fn p11_whole_packet() {
    let given = "45000028 00004000 40066EC5 0A000001 C000020A \
                 9C401538 00000000 00000000 50020000 325F0000";
    let left = "45000028 00004000 400626CA 0A000001 0A010005 \
                9C401920 00000000 00000000 50020000 E67B0000";
    let mut director = Director::tcp(&[1], 1);
    let mut packet = packets::bytes_of(given);
    assert!(packets::transport_verifies(&packet));
    assert_eq!(director.inbound(&mut packet, 0), Answer::Passed(0, Change::Opened));
    assert_eq!(packet, packets::bytes_of(left));
    assert!(packets::transport_verifies(&packet));
}

#[test]
fn one_slot_used_and_live() {
    let mut director = Director::tcp(&[1, 1], 1);
    assert_eq!(director.client_sends(0, SYN, 5), Answer::Passed(0, Change::Opened));
    assert_eq!(director.client_sends(1, SYN, 5), Answer::Refused(13));
    director.weight(0, 0);
    director.weight(1, 0);
    assert_eq!(
        director.client_sends(1, SYN, 5),
        Answer::Refused(13),
        "also when all weights are 0"
    );
    assert_eq!(director.client_sends(1, SYN, 905), Answer::Refused(14), "the slot is free again");
}

#[test]
fn clock_50_after_51() {
    let mut director = Director::tcp(&[1], 1);
    assert_eq!(director.tick(51), Answer::Number(0));
    assert_eq!(director.tick(50), Answer::Refused(11));
    assert_eq!(director.client_sends(0, SYN, 50), Answer::Refused(11));
    assert_eq!(director.state.clock, 51);
    assert_eq!(director.tick(51), Answer::Number(0));
    assert_eq!(director.client_sends(0, SYN, 51), Answer::Passed(0, Change::Opened));
}

#[test]
fn data_offset_5_and_6_with_20_payload_bytes() {
    let mut plan = packets::tcp(client(0), VIRTUAL, SYN);
    plan.data_offset = Some(5);
    let mut director = Director::tcp(&[1], 1);
    assert_eq!(director.inbound(&mut plan.build(), 0), Answer::Passed(0, Change::Opened));
    plan.data_offset = Some(6);
    assert_eq!(director.inbound(&mut plan.build(), 0), Answer::Refused(9));
}

#[test]
fn row_of_20480_and_20485_words() {
    let mut state = State::new();
    for (words, answer) in [(20_480, Answer::Done), (20_485, Answer::Refused(1))] {
        let mut row = vec![9; words];
        let given = set_up(&mut state, service(UDP, 3, 2), servers(&[1, 1]), &mut row);
        assert_eq!(given, answer);
    }
}
