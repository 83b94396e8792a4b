//! Two used slots with one client: sound, and the lower slot answers.

use crate::support::*;
use reference::packets::{ACK, FIN, RST, SYN};
use reference::*;

/// Client 0 in slot 1 (server 1, seen at 50) and slot 3 (server 0, seen at 100).
fn doubled() -> Director {
    let mut director = Director::tcp(&[1, 1], 4);
    director.state.clock = 100;
    let (address, port) = client(0);
    director.place(1, [1, address, u32::from(port), 1, 50]);
    director.place(3, [3, address, u32::from(port), 0, 100]);
    assert!(director.sound());
    director
}

#[test]
fn the_lower_slot_answers_inbound() {
    let mut director = doubled();
    assert_eq!(director.client_sends(0, FIN, 120), Answer::Passed(1, Change::Kept));
    assert_eq!(director.slot(1)[0], 2);
    assert_eq!(director.slot(1)[4], 120);
    assert_eq!(director.slot(3), doubled().slot(3));
    assert_eq!(director.client_sends(0, SYN, 120), Answer::Passed(1, Change::Kept));
}

#[test]
fn the_lower_slot_answers_outbound() {
    let mut director = doubled();
    assert_eq!(director.server_sends(1, 0, ACK, 100), Answer::Passed(1, Change::Kept));
    // the upper slot's server isn't the lower one's: 12
    assert_eq!(director.server_sends(0, 0, ACK, 100), Answer::Refused(12));
}

#[test]
fn an_rst_ends_the_lower_and_the_upper_answers_then() {
    let mut director = doubled();
    assert_eq!(director.client_sends(0, RST, 100), Answer::Passed(1, Change::Ended));
    assert_eq!(director.counts(), [1, 0]);
    assert_eq!(director.client_sends(0, ACK, 100), Answer::Passed(0, Change::Kept));
    assert_eq!(director.server_sends(0, 0, RST, 100), Answer::Passed(0, Change::Ended));
    assert_eq!(director.counts(), [0, 0]);
    assert_eq!(director.client_sends(0, ACK, 100), Answer::Refused(12));
}

#[test]
fn the_lower_grows_idle_and_the_upper_answers_then() {
    let mut director = doubled();
    assert_eq!(director.server_sends(0, 0, ACK, 949), Answer::Refused(12));
    assert_eq!(director.server_sends(0, 0, ACK, 950), Answer::Passed(0, Change::Kept));
    assert_eq!(director.counts(), [1, 0]);
}

#[test]
fn a_tick_removes_both() {
    let mut director = doubled();
    assert_eq!(director.tick(2_000), Answer::Number(2));
    assert_eq!(director.counts(), [0, 0]);
}
