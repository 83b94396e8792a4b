//! The pick answers a server wherever some weight is above 0, and 14 is given before it where none is.

use crate::random::pick;
use crate::support::*;
use reference::data::{ServerNumber, TCP};
use reference::packets::SYN;
use reference::scheduler;
use reference::*;
use std::ops::RangeInclusive;

/// How many servers the tests try.
const SIZES: [usize; 9] = [1, 2, 3, 4, 5, 6, 7, 8, 64];

/// These schedulers, each with so many servers, and one of them.
fn each_server(schedulers: RangeInclusive<u8>) -> impl Iterator<Item = (u8, usize, usize)> {
    let sized = schedulers.flat_map(|scheduler| SIZES.map(|n| (scheduler, n)));
    sized.flat_map(|(scheduler, n)| (0..n).map(move |number| (scheduler, n, number)))
}

/// Every walk in the range of a state's scheduler.
fn walks(state: &State) -> Vec<Walk> {
    let (n, largest) = (i64::from(state.service.servers), state.largest_weight);
    let all = (-1..n).flat_map(|place| (0..=largest).map(move |level| Walk { place, level }));
    all.filter(|&walk| scheduler::walk_in_range(&State { walk, ..*state })).collect()
}

/// A list with one number at a place and another at all others.
fn with_one<T: Copy>(n: usize, place: usize, one: T, others: T) -> Vec<T> {
    (0..n).map(|number| if number == place { one } else { others }).collect()
}

/// A walk that has come to the only server of weight above 0. That weight is the divisor too, so it is the level
/// again where the walk has come to server 0.
fn walk_at(only: usize, from: Walk, state: &State) -> Walk {
    let place = only as i64;
    match state.service.scheduler {
        1 => Walk { place, level: 0 },
        2 if (0..place).contains(&from.place) => Walk { place, level: from.level },
        2 => Walk { place, level: state.largest_weight },
        _ => from,
    }
}

/// From every walk the only server of weight above 0 is picked.
fn is_picked(mut director: Director, only: usize) {
    for walk in walks(&director.state) {
        director.state.walk = walk;
        assert!(director.sound());
        let want = (ServerNumber(only), walk_at(only, walk, &director.state));
        assert_eq!(scheduler::pick(&director.state), want, "{:?}", director.state);
    }
}

#[test]
fn the_only_server_of_weight_above_0_is_picked_from_every_walk() {
    for (scheduler, n, only) in each_server(1..=4) {
        for weight in [1, 3] {
            is_picked(Director::new(TCP, scheduler, &with_one(n, only, weight, 0), 1), only);
        }
    }
}

#[test]
fn it_is_picked_whatever_the_counts() {
    for (scheduler, n, only) in each_server(3..=4) {
        for (count, of_others) in [(2, 0), (0, 2)] {
            let mut director = Director::new(TCP, scheduler, &with_one(n, only, 1, 0), n * 2);
            director.fill(&with_one(n, only, count, of_others));
            is_picked(director, only);
        }
    }
}

/// Every list of so many numbers below 4: the digits to base 4 of every number of that length.
fn lists(length: u32) -> impl Iterator<Item = Vec<u16>> {
    let digits = move |number: u16| (0..length).map(|place| number >> (2 * place) & 3).collect();
    (0..1 << (2 * length)).map(digits)
}

/// Compares the pick from every walk with the rule as it is written; tells how many there are.
fn compared(scheduler: u8, weights: &[u16], counts: &[u16]) -> usize {
    let mut director = Director::new(TCP, scheduler, weights, 9);
    director.fill(&counts.iter().map(|&count| u32::from(count)).collect::<Vec<u32>>());
    let walks = walks(&director.state);
    for &walk in &walks {
        director.state.walk = walk;
        let (number, after) = pick(&director.state);
        assert_eq!(scheduler::pick(&director.state), (ServerNumber(number), after));
    }
    walks.len()
}

#[test]
fn every_small_state_picks_as_it_is_written() {
    let mut picks = 0;
    for list in (1..=3).flat_map(|n| lists(2 * n)) {
        let (weights, counts) = list.split_at(list.len() / 2);
        if weights.iter().any(|&weight| weight > 0) {
            picks += (1..=4).map(|number| compared(number, weights, counts)).sum::<usize>();
        }
    }
    // 12,588 of scheduler 1, 45,900 of 2, 4,284 each of 3 and 4
    assert_eq!(picks, 67_056);
}

#[test]
fn a_tie_goes_to_the_lowest_number_of_weight_above_0() {
    let ties: [(&[u16], &[u32], u32); 4] = [
        (&[0, 1, 1], &[0, 0, 0], 1),
        (&[0, 0, 1, 1], &[0, 1, 2, 2], 2),
        (&[0, 2, 2], &[3, 1, 1], 1),
        (&[0, 3, 0, 3], &[1, 1, 0, 1], 1),
    ];
    for scheduler in [3, 4] {
        for (weights, counts, want) in ties {
            let mut director = Director::new(TCP, scheduler, weights, 10);
            director.fill(counts);
            assert_eq!(picks(&mut director, 0, 1), [want], "{weights:?} {counts:?}");
        }
    }
}

/// All weights 0, and client 0's finished connection with the last server in slot 0.
fn weightless(scheduler: u8, n: usize, slots: usize) -> Director {
    let mut director = Director::new(TCP, scheduler, &vec![0; n], slots);
    let (address, port) = client(0);
    director.place(0, [4, address, u32::from(port), n as u32 - 1, 0]);
    director
}

/// A client's SYN gets this number and moves the clock alone.
fn is_refused(mut director: Director, client: usize, number: u8) {
    let mut want = director.clone();
    want.state.clock = 7;
    assert_eq!(director.client_sends(client, SYN, 7), Answer::Refused(number));
    assert_eq!(director, want);
}

#[test]
fn with_all_weights_0_no_walk_moves() {
    for (scheduler, n) in (1..=4).flat_map(|scheduler| SIZES.map(|n| (scheduler, n))) {
        let (mut full, mut free) = (weightless(scheduler, n, 1), weightless(scheduler, n, 2));
        for walk in walks(&free.state) {
            (full.state.walk, free.state.walk) = (walk, walk);
            is_refused(full.clone(), 1, 13);
            is_refused(free.clone(), 1, 14);
            // the client of the finished connection
            is_refused(full.clone(), 0, 14);
            is_refused(free.clone(), 0, 14);
        }
    }
}
