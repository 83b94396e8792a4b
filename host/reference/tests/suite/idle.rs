//! Idle limits at their edges, by tick and by packet.

use crate::support::*;
use reference::data::{TCP, UDP};
use reference::packets::{ACK, SYN};
use reference::*;

/// One connection in a phase, last seen at a second, and its limit.
const CASES: [(u8, u32, u32); 5] =
    [(UDP, 1, 300), (TCP, 1, 900), (TCP, 2, 900), (TCP, 3, 900), (TCP, 4, 120)];

fn seen_at(protocol: u8, phase: u32, second: u32) -> Director {
    let mut director = Director::new(protocol, 1, &[1, 1], 2);
    director.state.clock = second;
    let (address, port) = client(0);
    director.place(0, [phase, address, u32::from(port), 1, second]);
    assert!(director.sound());
    director
}

#[test]
fn by_tick() {
    for (protocol, phase, limit) in CASES {
        for second in [0, 100, u32::MAX - limit] {
            let mut director = seen_at(protocol, phase, second);
            assert_eq!(director.tick(second + limit - 1), Answer::Number(0));
            assert_eq!(director.counts(), [0, 1]);
            assert_eq!(director.tick(second + limit), Answer::Number(1));
            assert_eq!(director.counts(), [0, 0]);
            assert_eq!(director.slot(0), [0; 5]);
            assert_eq!(director.tick(second + limit), Answer::Number(0));
        }
    }
}

#[test]
fn by_inbound_packet() {
    for (protocol, phase, limit) in CASES {
        let mut live = seen_at(protocol, phase, 100);
        let mut gone = live.clone();
        let kept = live.client_sends(0, ACK, 100 + limit - 1);
        assert_eq!(kept, Answer::Passed(1, Change::Kept));
        assert_eq!(live.slot(0)[4], 100 + limit - 1);
        // gone: a client of old opens anew, and the ring goes on from its start
        let anew = gone.client_sends(0, SYN, 100 + limit);
        assert_eq!(anew, Answer::Passed(0, Change::Opened));
        assert_eq!(gone.counts(), [1, 0]);
    }
}

#[test]
fn by_outbound_packet() {
    for (protocol, phase, limit) in CASES {
        let mut live = seen_at(protocol, phase, 100);
        let mut gone = live.clone();
        let kept = live.server_sends(1, 0, ACK, 100 + limit - 1);
        assert_eq!(kept, Answer::Passed(1, Change::Kept));
        assert_eq!(gone.server_sends(1, 0, ACK, 100 + limit), Answer::Refused(12));
        assert_eq!(gone.counts(), [0, 0]);
    }
}

#[test]
fn a_tick_tells_the_fall_of_all_counts() {
    let mut director = Director::new(TCP, 1, &[1, 1, 1], 9);
    for number in 0..9 {
        director.client_sends(number, SYN, number as u32);
    }
    assert_eq!(director.tick(905), Answer::Number(6));
    assert_eq!(director.counts(), [1, 1, 1]);
    assert_eq!(director.tick(u32::MAX), Answer::Number(3));
    assert!(director.sound());
}

#[test]
fn the_count_call_takes_no_clock() {
    let mut director = Director::udp(&[1], 1);
    director.client_sends(0, 0, 0);
    assert_eq!(director.tick(299), Answer::Number(0));
    assert_eq!(director.count(0), Answer::Number(1));
    assert_eq!(director.server_sends(0, 5, 0, 300), Answer::Refused(12));
    assert_eq!(director.count(0), Answer::Number(0));
}

#[test]
fn phase_4_still_counts_for_two_minutes() {
    let mut director = seen_at(TCP, 4, 0);
    assert_eq!(director.count(1), Answer::Number(1));
    assert_eq!(director.tick(119), Answer::Number(0));
    assert_eq!(director.count(1), Answer::Number(1));
    // any packet of it sets last-seen, also in phase 4
    assert_eq!(director.server_sends(1, 0, ACK, 119), Answer::Passed(1, Change::Kept));
    assert_eq!(director.tick(238), Answer::Number(0));
    assert_eq!(director.tick(239), Answer::Number(1));
}

#[test]
fn idle_ones_go_before_a_slot_is_looked_for() {
    let mut director = Director::udp(&[1], 1);
    director.client_sends(0, 0, 0);
    assert_eq!(director.client_sends(1, 0, 299), Answer::Refused(13));
    assert_eq!(director.client_sends(1, 0, 300), Answer::Passed(0, Change::Opened));
    assert_eq!(director.counts(), [1]);
}
