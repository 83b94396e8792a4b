//! Picks and walks beyond the document's examples.

use crate::support::*;
use reference::data::TCP;
use reference::packets::{ACK, SYN};
use reference::scheduler;
use reference::*;

fn walk(place: i64, level: u16) -> Walk {
    Walk { place, level }
}

/// What scheduler 2 picks from a walk, and the walk after it.
fn weighted(weights: &[u16], from: Walk) -> (usize, Walk) {
    let mut director = Director::new(TCP, 2, weights, 1);
    director.state.walk = from;
    assert!(director.sound());
    let (number, after) = scheduler::pick(&director.state);
    director.state.walk = after;
    assert!(director.sound());
    (number.0, after)
}

#[test]
fn weighted_round_robin_walks() {
    assert_eq!(weighted(&[4, 3, 2], walk(-1, 0)), (0, walk(0, 4)));
    assert_eq!(weighted(&[4, 3, 2], walk(0, 4)), (0, walk(0, 3)));
    assert_eq!(weighted(&[4, 3, 2], walk(0, 3)), (1, walk(1, 3)));
    assert_eq!(weighted(&[4, 3, 2], walk(2, 1)), (0, walk(0, 4)));
    assert_eq!(weighted(&[0, 6, 4], walk(1, 6)), (1, walk(1, 4)));
    assert_eq!(weighted(&[0, 6, 4], walk(2, 2)), (1, walk(1, 6)));
    assert_eq!(weighted(&[5], walk(0, 5)), (0, walk(0, 5)));
}

#[test]
fn weighted_round_robin_from_places_only_a_handed_in_state_has() {
    // i = −1 with cw above 0: the first step drops cw
    assert_eq!(weighted(&[2, 4], walk(-1, 4)), (0, walk(0, 2)));
    // cw that is no multiple of the divisor
    assert_eq!(weighted(&[2, 4], walk(1, 3)), (0, walk(0, 1)));
    assert_eq!(weighted(&[2, 4], walk(1, 1)), (1, walk(1, 4)));
    // cw exactly the divisor, and one above
    assert_eq!(weighted(&[65_535, 0], walk(1, 65_535)), (0, walk(0, 65_535)));
    assert_eq!(weighted(&[1, 65_535], walk(1, 2)), (0, walk(0, 1)));
    assert_eq!(weighted(&[1, 65_535], walk(1, 1)), (1, walk(1, 65_535)));
}

#[test]
fn a_period_gives_each_its_weight() {
    let weights = [6, 0, 9, 15];
    let mut director = Director::new(TCP, 2, &weights, 20);
    let given = picks(&mut director, 0, 10);
    let per: Vec<usize> = (0..4).map(|n| given.iter().filter(|&&g| g == n).count()).collect();
    assert_eq!(per, [2, 0, 3, 5]);
    assert_eq!(picks(&mut director, 10, 10), given);
}

#[test]
fn a_different_weight_restarts_walk_2_and_an_equal_one_does_not() {
    let mut director = Director::new(TCP, 2, &[4, 3, 2], 9);
    picks(&mut director, 0, 3);
    let before = director.clone();
    assert_eq!(director.weight(1, 3), Answer::Done);
    assert_eq!(director, before);
    assert_eq!(director.weight(1, 4), Answer::Done);
    assert_eq!(director.state.walk, walk(-1, 0));
    assert_eq!(director.state.servers[1].weight, 4);
    // back again: also a change, also a restart
    picks(&mut director, 3, 1);
    assert_eq!(director.weight(1, 3), Answer::Done);
    assert_eq!(director.state.walk, walk(-1, 0));
    assert_eq!(picks(&mut director, 4, 3), [0, 0, 1]);
}

#[test]
fn the_others_keep_their_walk_on_a_weight_change() {
    for scheduler in [1, 3, 4] {
        let mut director = Director::new(TCP, scheduler, &[1, 1, 1], 9);
        picks(&mut director, 0, 2);
        let walk = director.state.walk;
        assert_eq!(director.weight(2, 9), Answer::Done);
        assert_eq!(director.state.walk, walk);
        assert_eq!(director.state.servers[2].weight, 9);
    }
}

#[test]
fn round_robin_goes_round_from_the_last_pick() {
    let mut director = Director::new(TCP, 1, &[1, 1, 1], 9);
    assert_eq!(director.state.walk, walk(2, 0));
    assert_eq!(picks(&mut director, 0, 2), [0, 1]);
    director.weight(2, 0);
    director.weight(0, 0);
    // only the last pick itself is left: all round the ring
    assert_eq!(picks(&mut director, 2, 2), [1, 1]);
    assert_eq!(director.state.walk, walk(1, 0));
}

#[test]
fn round_robin_weights_do_not_weigh() {
    let mut director = Director::new(TCP, 1, &[65_535, 1], 4);
    assert_eq!(picks(&mut director, 0, 4), [0, 1, 0, 1]);
}

#[test]
fn the_walk_moves_in_an_opening_only() {
    for scheduler in 1..=4 {
        let mut director = Director::new(TCP, scheduler, &[3, 2], 1);
        picks(&mut director, 0, 1);
        let walk = director.state.walk;
        assert_eq!(director.client_sends(1, SYN, 0), Answer::Refused(13));
        assert_eq!(director.client_sends(1, ACK, 0), Answer::Refused(12));
        assert_eq!(director.client_sends(0, SYN, 0), Answer::Passed(0, Change::Kept));
        director.tick(900);
        assert_eq!(director.state.walk, walk);
    }
}

#[test]
fn least_connection_ties_go_to_the_lowest_number() {
    let mut director = Director::new(TCP, 3, &[1, 9, 1], 6);
    assert_eq!(picks(&mut director, 0, 6), [0, 1, 2, 0, 1, 2]);
}

#[test]
fn weighted_least_connection_ties_go_to_the_lowest_number() {
    let mut director = Director::new(TCP, 4, &[2, 4], 10);
    // 0/2=0/4, then 1/2>0/4, 1/2>1/4, 1/2=2/4, 2/2>2/4, 2/2>3/4
    assert_eq!(picks(&mut director, 0, 6), [0, 1, 1, 0, 1, 1]);
    let mut director = Director::new(TCP, 4, &[0, 65_535, 65_534], 10);
    assert_eq!(picks(&mut director, 0, 4), [1, 2, 1, 2]);
}

#[test]
fn least_connections_look_at_weights_above_0_only() {
    for scheduler in [3, 4] {
        let mut director = Director::new(TCP, scheduler, &[0, 5, 0], 10);
        director.fill(&[0, 3, 1]);
        assert_eq!(picks(&mut director, 0, 1), [1]);
    }
}

#[test]
fn weighted_least_connection_with_large_products() {
    let mut director = Director::new(TCP, 4, &[65_535, 65_535], 4_096);
    director.fill(&[2_047, 2_046]);
    assert_eq!(picks(&mut director, 5_000, 2), [1, 0]);
}

#[test]
fn all_64_servers() {
    let mut director = Director::new(TCP, 2, &[7; 64], 130);
    let given = picks(&mut director, 0, 128);
    let want: Vec<u32> = (0..64).chain(0..64).collect();
    assert_eq!(given, want);
}
