//! A SYN of a client whose connection both have finished: the old one ends and a new one opens.

use crate::support::*;
use reference::data::TCP;
use reference::packets::{ACK, FIN, RST, SYN};
use reference::*;

/// When the connections of these tests were last seen, and the clock before each test's first call.
const SEEN: u32 = 100;

/// A slot of client `number` in a phase.
fn slot_in(phase: u32, number: usize, server: u32) -> [u32; 5] {
    let (address, port) = client(number);
    [phase, address, u32::from(port), server, SEEN]
}

fn director(scheduler: u8, weights: &[u16], slots: &[[u32; 5]]) -> Director {
    let mut director = Director::new(TCP, scheduler, weights, slots.len());
    director.state.clock = SEEN;
    for (number, &words) in slots.iter().enumerate().filter(|(_, words)| words[0] != 0) {
        director.place(number, words);
    }
    assert!(director.sound());
    director
}

/// Client 0's finished connection with server 0 of two, in the one slot.
fn one_slot() -> Director {
    director(1, &[1, 1], &[slot_in(4, 0, 0)])
}

fn opened(server: u32) -> Answer {
    Answer::Passed(server, Change::Opened)
}

fn kept(server: u32) -> Answer {
    Answer::Passed(server, Change::Kept)
}

/// Client 0's slot after an opening at that clock.
fn new_slot(server: u32, clock: u32) -> [u32; 5] {
    let [_, address, port, ..] = slot_in(1, 0, server);
    [1, address, port, server, clock]
}

#[test]
fn the_pick_sees_the_lowered_count() {
    let mut least = director(3, &[1, 1], &[slot_in(1, 1, 0), slot_in(4, 0, 1)]);
    assert_eq!(least.client_sends(0, SYN, 105), opened(1), "0 if the count were still 1");
    assert_eq!((least.slot(1), least.counts()), (new_slot(1, 105), vec![1, 1]));

    let slots = [slot_in(1, 1, 0), slot_in(4, 0, 1), slot_in(1, 2, 1)];
    let mut weighted = director(4, &[1, 2], &slots);
    assert_eq!(weighted.client_sends(0, SYN, 105), opened(1), "0 if the count were still 2");
    assert_eq!(weighted.counts(), [1, 2]);
}

#[test]
fn a_lower_free_slot_is_taken() {
    let mut director = director(1, &[1, 1], &[[0; 5], slot_in(1, 1, 1), slot_in(4, 0, 1)]);
    assert_eq!(director.client_sends(0, SYN, 105), opened(0));
    assert_eq!((director.slot(0), director.slot(2)), (new_slot(0, 105), [0; 5]));
    assert_eq!(director.counts(), [1, 1]);
}

#[test]
fn the_old_slot_is_taken_where_only_higher_ones_are_free() {
    let mut director = director(1, &[1, 1], &[slot_in(1, 1, 1), slot_in(4, 0, 1), [0; 5]]);
    assert_eq!(director.client_sends(0, SYN, 105), opened(0));
    assert_eq!((director.slot(1), director.slot(2)), (new_slot(0, 105), [0; 5]));
}

#[test]
fn a_slot_that_grows_idle_in_the_call_is_taken() {
    let mut idle = slot_in(4, 1, 1);
    idle[4] = 0;
    let mut director = director(1, &[1, 1], &[idle, slot_in(4, 0, 0)]);
    assert_eq!(director.client_sends(0, SYN, 120), opened(0));
    assert_eq!((director.slot(0), director.slot(1)), (new_slot(0, 120), [0; 5]));
    assert_eq!(director.counts(), [1, 0]);
}

#[test]
fn a_full_table_has_room_for_it() {
    let mut director = one_slot();
    assert_eq!(director.client_sends(1, SYN, 105), Answer::Refused(13));
    assert_eq!(director.client_sends(0, SYN, 105), opened(0));
    assert_eq!((director.slot(0), director.counts()), (new_slot(0, 105), vec![1, 0]));
}

#[test]
fn with_all_weights_0_the_old_one_stays_as_it_was() {
    let mut idle = slot_in(4, 1, 1);
    idle[4] = 0;
    for scheduler in 1..=4 {
        for slots in [&[slot_in(4, 0, 1)][..], &[idle, slot_in(4, 0, 1), slot_in(1, 2, 0)]] {
            let mut director = director(scheduler, &[0, 0], slots);
            let mut ticked = director.clone();
            ticked.tick(120);
            assert_eq!(director.client_sends(0, SYN, 120), Answer::Refused(14));
            assert_eq!(director, ticked);
            assert_eq!(director.slot(slots.len() / 2), slot_in(4, 0, 1));
            assert_eq!(director.client_sends(0, ACK, 121), kept(1));
        }
    }
}

#[test]
fn which_flags_renew() {
    for flags in 0..=255u8 {
        let mut director = one_slot();
        let (want, slot) = match flags & (SYN | ACK | RST | FIN) {
            SYN => (opened(0), new_slot(0, 105)),
            other if other & RST != 0 => (Answer::Passed(0, Change::Ended), [0; 5]),
            _ => (kept(0), [4, client(0).0, u32::from(client(0).1), 0, 105]),
        };
        assert_eq!(director.client_sends(0, flags, 105), want, "flags {flags:02X}");
        assert_eq!(director.slot(0), slot, "flags {flags:02X}");
    }
}

#[test]
fn a_servers_syn_is_an_ordinary_packet() {
    let mut director = one_slot();
    assert_eq!(director.server_sends(0, 0, SYN, 105), kept(0));
    assert_eq!((director.slot(0)[0], director.slot(0)[4]), (4, 105));
}

#[test]
fn the_walk_moves_as_in_any_opening() {
    let mut ring = one_slot();
    for (clock, server) in [(101, 0), (102, 1), (103, 0)] {
        assert_eq!(ring.client_sends(0, SYN, clock), opened(server));
        assert_eq!(ring.state.walk.place, i64::from(server));
        ring.row[0] = 4;
    }
    let mut weighted = director(2, &[4, 3, 2], &[slot_in(4, 0, 2)]);
    for server in [0, 0, 1, 0, 1, 2, 0, 1, 2] {
        assert_eq!(weighted.client_sends(0, SYN, 105), opened(server));
        weighted.row[0] = 4;
    }
}

#[test]
fn the_new_one_leaves_a_drained_server() {
    let mut director = one_slot();
    director.weight(0, 0);
    let mut packet = client_plan(TCP, 0, SYN).build();
    assert_eq!(director.inbound(&mut packet, 105), opened(1));
    assert_eq!(director.counts(), [0, 1]);
    let (address, port) = server_end(1);
    assert_eq!(
        (&packet[16..20], &packet[22..24]),
        (&address.to_be_bytes()[..], &port.to_be_bytes()[..])
    );
    assert!(packets::header_verifies(&packet) && packets::transport_verifies(&packet));
    assert_eq!(
        director.server_sends(0, 0, ACK, 105),
        Answer::Refused(12),
        "the old server's packet"
    );
}

#[test]
fn the_new_one_lasts_900_silent_seconds() {
    let mut director = one_slot();
    assert_eq!(director.client_sends(0, SYN, 105), opened(0));
    assert_eq!(director.tick(105 + 899), Answer::Number(0));
    assert_eq!(director.tick(105 + 900), Answer::Number(1));
}

#[test]
fn at_its_idle_limit_the_old_one_is_gone_before() {
    for (after, left) in [(119, 1), (120, 0)] {
        assert_eq!(one_slot().client_sends(0, SYN, SEEN + after), opened(0));
        let mut director = director(1, &[0], &[slot_in(4, 0, 0)]);
        assert_eq!(director.client_sends(0, SYN, SEEN + after), Answer::Refused(14));
        assert_eq!(director.counts(), [left], "{after} s after its last packet");
    }
}

#[test]
fn of_two_slots_with_one_client_the_lower_answers() {
    let (live, old) = (slot_in(1, 0, 0), slot_in(4, 0, 1));
    let mut lower_is_live = director(3, &[1, 1], &[live, old]);
    assert_eq!(lower_is_live.client_sends(0, SYN, 105), kept(0));
    assert_eq!(lower_is_live.slot(1), old);

    let mut lower_is_old = director(3, &[1, 1], &[old, live, old]);
    assert_eq!(lower_is_old.client_sends(0, SYN, 105), opened(0));
    assert_eq!((lower_is_old.slot(0), lower_is_old.slot(2)), (new_slot(0, 105), old));
    assert_eq!(lower_is_old.counts(), [2, 1]);
}
