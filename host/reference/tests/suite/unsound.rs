//! 15: unsound states, one rule at a time. Every call but setup refuses, and nothing changes.

use crate::support::*;
use reference::data::{TCP, UDP};
use reference::packets::SYN;
use reference::*;

/// A sound director with a free slot, two used ones and every field worth spoiling.
fn base(protocol: u8, scheduler: u8) -> Director {
    let mut director = Director::new(protocol, scheduler, &[4, 3, 2], 4);
    assert_eq!(director.tick(10), Answer::Number(0));
    picks_at(&mut director);
    assert!(director.sound());
    director
}

fn picks_at(director: &mut Director) {
    for number in 0..2 {
        let opened = director.client_sends(number, SYN, 20);
        assert!(matches!(opened, Answer::Passed(_, Change::Opened)));
    }
}

pub fn assert_refuses(mut director: Director, what: &str) {
    let before = director.clone();
    let bytes = client_plan(director.state.service.protocol, 0, SYN).build();
    assert!(!director.sound(), "{what}");
    assert_eq!(director.weight(0, 9), Answer::Refused(15), "{what}");
    assert_eq!(director.count(0), Answer::Refused(15), "{what}");
    assert_eq!(director.tick(u32::MAX), Answer::Refused(15), "{what}");
    let mut packet = bytes.clone();
    assert_eq!(director.inbound(&mut packet, u32::MAX), Answer::Refused(15), "{what}");
    assert_eq!(director.outbound(&mut packet, u32::MAX), Answer::Refused(15), "{what}");
    assert_eq!(director.inbound(&mut [], 0), Answer::Refused(15), "{what}");
    assert_eq!((director, packet), (before, bytes), "{what}");
}

fn spoiled(scheduler: u8, what: &str, spoil: impl Fn(&mut Director)) {
    for protocol in [TCP, UDP] {
        let mut director = base(protocol, scheduler);
        spoil(&mut director);
        assert_refuses(director, what);
    }
}

#[test]
fn rule_1_servers_and_row_length() {
    for servers in [0, 65, 1 << 16, u32::MAX] {
        spoiled(1, "servers", |d| d.state.service.servers = servers);
    }
    spoiled(1, "row empty", |d| d.row.clear());
    spoiled(1, "row cut", |d| d.row.truncate(19));
    spoiled(1, "row longer by one", |d| d.row.push(0));
    spoiled(1, "row too long", |d| d.row.resize(20_485, 0));
    let mut longer = base(TCP, 1);
    longer.row.resize(20_480, 0);
    assert!(longer.sound(), "another sound length is sound");
}

#[test]
fn rule_2_service() {
    spoiled(1, "address", |d| d.state.service.address = 0);
    spoiled(1, "port", |d| d.state.service.port = 0);
    for protocol in [0, 1, 5, 7, 16, 18, 255] {
        spoiled(1, "protocol", |d| d.state.service.protocol = protocol);
    }
    for scheduler in [0, 5, 255] {
        spoiled(3, "scheduler", |d| d.state.service.scheduler = scheduler);
    }
}

#[test]
fn rules_3_and_4_servers() {
    spoiled(1, "server address", |d| d.state.servers[2].address = 0);
    spoiled(1, "server port", |d| d.state.servers[0].port = 0);
    spoiled(1, "equal servers", |d| d.state.servers[2].address = d.state.servers[0].address);
}

#[test]
fn unused_places() {
    for place in [3, 63] {
        spoiled(1, "unused address", |d| d.state.servers[place].address = 1);
        spoiled(1, "unused port", |d| d.state.servers[place].port = 1);
        spoiled(1, "unused weight", |d| d.state.servers[place].weight = 1);
        spoiled(1, "unused count", |d| d.state.servers[place].count = 1);
    }
    spoiled(3, "a server too few", |d| d.state.service.servers = 2);
    spoiled(3, "a server too many", |d| d.state.service.servers = 4);
}

#[test]
fn free_slots() {
    for word in 1..5 {
        spoiled(1, "free slot", |d| d.row[2 * 5 + word] = 1);
    }
}

#[test]
fn used_slots() {
    for phase in [5, 6, u32::MAX] {
        spoiled(1, "phase", |d| d.row[0] = phase);
    }
    spoiled(1, "phase 0 of a used slot", |d| d.row[0] = 0);
    spoiled(1, "port", |d| d.row[2] = 65_536);
    spoiled(1, "server", |d| d.row[3] = 3);
    spoiled(1, "server", |d| d.row[3] = u32::MAX);
    spoiled(1, "last-seen", |d| d.row[4] = 21);
    spoiled(1, "clock", |d| d.state.clock = 19);
    for phase in 2..=4 {
        let mut tcp = base(TCP, 1);
        tcp.row[0] = phase;
        assert!(tcp.sound());
        let mut udp = base(UDP, 1);
        udp.row[0] = phase;
        assert_refuses(udp, "UDP phase");
    }
    let mut edges = base(TCP, 1);
    edges.row[1] = u32::MAX;
    edges.row[2] = 65_535;
    edges.row[4] = 20;
    assert!(edges.sound());
    edges.row[4] = 0;
    assert!(edges.sound());
}

#[test]
fn counts() {
    spoiled(1, "count too high", |d| d.state.servers[0].count = 2);
    spoiled(1, "count too low", |d| d.state.servers[0].count = 0);
    spoiled(1, "count of none", |d| d.state.servers[2].count = 1);
    spoiled(1, "count at its end", |d| d.state.servers[0].count = u32::MAX);
    spoiled(1, "counts swapped", |d| d.row[3] = 2);
}

#[test]
fn round_robin_range() {
    for place in [-1, 3, 4, 63, 64, i64::MAX, i64::MIN] {
        spoiled(1, "place", |d| d.state.walk.place = place);
    }
    spoiled(1, "level", |d| d.state.walk.level = 1);
    for place in 0..3 {
        let mut director = base(TCP, 1);
        director.state.walk.place = place;
        assert!(director.sound());
    }
}

#[test]
fn weighted_round_robin_range() {
    for place in [-2, 3, 64, i64::MAX, i64::MIN] {
        spoiled(2, "place", |d| d.state.walk.place = place);
    }
    for level in [5, 65_535] {
        spoiled(2, "level", |d| d.state.walk.level = level);
    }
    for place in 0..3 {
        spoiled(2, "level 0", |d| d.state.walk = Walk { place, level: 0 });
    }
    for place in -1..3 {
        for level in 1..=4 {
            let mut director = base(TCP, 2);
            director.state.walk = Walk { place, level };
            assert!(director.sound(), "{place} {level}");
        }
    }
    let mut director = base(TCP, 2);
    director.state.walk = Walk { place: -1, level: 0 };
    assert!(director.sound());
}

#[test]
fn weighted_round_robin_range_with_all_weights_0() {
    let mut director = Director::new(TCP, 2, &[0, 0], 1);
    assert!(director.sound());
    director.state.walk = Walk { place: 0, level: 0 };
    assert_refuses(director.clone(), "place 0, level 0");
    director.state.walk = Walk { place: -1, level: 1 };
    assert_refuses(director, "level above every weight");
}

#[test]
fn least_connection_range() {
    for scheduler in [3, 4] {
        for place in [-1, 1, 2, i64::MAX, i64::MIN] {
            spoiled(scheduler, "place", |d| d.state.walk.place = place);
        }
        spoiled(scheduler, "level", |d| d.state.walk.level = 1);
    }
}

#[test]
fn setup_does_not_judge_the_present_state() {
    let mut director = base(TCP, 1);
    director.state.service.servers = u32::MAX;
    director.row.fill(u32::MAX);
    let settings = servers(&[1]);
    let done = set_up(&mut director.state, service(TCP, 1, 1), settings, &mut director.row);
    assert_eq!(done, Answer::Done);
    assert_eq!(director, Director::tcp(&[1], 4));
}

#[test]
fn the_zero_state_is_unsound() {
    assert_refuses(Director { state: State::default(), row: vec![0; 5] }, "zeros");
}
