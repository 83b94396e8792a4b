//! Mistakes about the largest weight and the divisor that the state holds.

use crate::support::{is_found, Made};
use agreement::call::{Call, Told};
use agreement::sides::{Reference, Side};
use reference::data::WEIGHTED_ROUND_ROBIN;
use reference::{weights, State, Walk, PLACES};

/// The reference with a mistake made after each setup or weight that is accepted.
struct AfterDone {
    of_weights_alone: bool,
    mistake: fn(&mut Made),
}

impl Side for AfterDone {
    fn make(&self, call: &Call, state: &mut State, row: &mut [u32], packet: &mut [u8]) -> Told {
        let before = *state;
        let told = Reference.make(call, state, row, packet);
        let is_such = match call {
            Call::SetUp { .. } => !self.of_weights_alone,
            Call::SetWeight { .. } => true,
            _ => false,
        };
        if is_such && told.refusal == 0 {
            (self.mistake)(&mut Made { call, before, state, row, packet });
        }
        told
    }
}

/// The mistake leaves a wrong number, and does nothing else wrong.
fn is_left_wrong(of_weights_alone: bool, mistake: fn(&mut Made), complaint: &str) {
    let found = is_found(&AfterDone { of_weights_alone, mistake }, 2);
    assert!(found.starts_with(complaint) && !found.contains(';'), "{found}");
}

fn left_wrong_by_weights(mistake: fn(&mut Made), complaint: &str) {
    is_left_wrong(true, mistake, complaint);
}

fn left_wrong(mistake: fn(&mut Made), complaint: &str) {
    is_left_wrong(false, mistake, complaint);
}

#[test]
fn a_weight_leaves_the_old_ones() {
    let mistake = |made: &mut Made| {
        made.state.largest_weight = made.before.largest_weight;
        made.state.weight_divisor = made.before.weight_divisor;
    };
    left_wrong_by_weights(mistake, "state: ");
}

#[test]
fn a_weight_leaves_the_old_divisor() {
    let mistake = |made: &mut Made| made.state.weight_divisor = made.before.weight_divisor;
    left_wrong_by_weights(mistake, "state: divisor");
}

#[test]
fn a_weight_leaves_the_old_largest() {
    let mistake = |made: &mut Made| made.state.largest_weight = made.before.largest_weight;
    left_wrong_by_weights(mistake, "state: largest weight");
}

#[test]
fn a_largest_that_no_weight_lowers() {
    let mistake = |made: &mut Made| {
        let State { largest_weight, .. } = made.before;
        made.state.largest_weight = made.state.largest_weight.max(largest_weight);
    };
    left_wrong_by_weights(mistake, "state: largest weight");
}

#[test]
fn held_under_scheduler_2_alone() {
    let mistake = |made: &mut Made| {
        if made.state.service.scheduler != WEIGHTED_ROUND_ROBIN {
            (made.state.largest_weight, made.state.weight_divisor) = (0, 0);
        }
    };
    left_wrong(mistake, "state: largest weight 0");
}

#[test]
fn a_divisor_to_which_zeros_matter() {
    let mistake = |made: &mut Made| {
        if made.state.weights().any(|weight| weight == 0) {
            made.state.weight_divisor = 0;
        }
    };
    left_wrong(mistake, "state: divisor 0");
}

#[test]
fn the_smallest_weight_above_0_for_divisor() {
    let mistake = |made: &mut Made| {
        let above_0 = made.state.weights().filter(|&weight| weight > 0);
        made.state.weight_divisor = above_0.min().unwrap_or(0);
    };
    left_wrong(mistake, "state: divisor");
}

#[test]
fn setup_reads_weights_past_the_last_server() {
    let mistake = |made: &mut Made| {
        let Call::SetUp { servers, .. } = made.call else { return };
        let mut all = State { servers: **servers, ..*made.state };
        all.service.servers = PLACES as u32;
        weights::make_true(&mut all);
        made.state.largest_weight = all.largest_weight;
        made.state.weight_divisor = all.weight_divisor;
    };
    left_wrong(mistake, "state: ");
}

/// Takes what it doesn't judge for true; given are the state and the same with both true.
struct Unjudged(fn(&mut State, State));

impl Side for Unjudged {
    fn make(&self, call: &Call, state: &mut State, row: &mut [u32], packet: &mut [u8]) -> Told {
        if !matches!(call, Call::SetUp { .. }) {
            let mut right = *state;
            weights::make_true(&mut right);
            (self.0)(state, right);
        }
        Reference.make(call, state, row, packet)
    }
}

fn is_accepted_though_wrong(unjudged: fn(&mut State, State)) {
    let complaint = is_found(&Unjudged(unjudged), 1);
    assert!(complaint.contains("not Told { refusal: 15,"), "{complaint}");
}

#[test]
fn the_largest_alone_judged() {
    is_accepted_though_wrong(|state, right| state.weight_divisor = right.weight_divisor);
}

#[test]
fn the_divisor_alone_judged() {
    is_accepted_though_wrong(|state, right| state.largest_weight = right.largest_weight);
}

#[test]
fn judged_under_scheduler_2_alone() {
    is_accepted_though_wrong(|state, right| {
        if state.service.scheduler != WEIGHTED_ROUND_ROBIN {
            *state = right;
        }
    });
}

/// Lowers the level by the largest weight: each time round it is at the largest again, as from the walk's start.
struct LargestForDivisor;

impl Side for LargestForDivisor {
    fn make(&self, call: &Call, state: &mut State, row: &mut [u32], packet: &mut [u8]) -> Told {
        let mut after = *state;
        let told = Reference.make(call, &mut after, &mut row.to_vec(), &mut packet.to_vec());
        let is_weighted = state.service.scheduler == WEIGHTED_ROUND_ROBIN;
        let is_round = state.walk.place == -1 || after.walk.place <= state.walk.place;
        if told.change == 1 && is_weighted && is_round {
            state.walk = Walk { place: -1, level: 0 };
        }
        Reference.make(call, state, row, packet)
    }
}

#[test]
fn the_largest_taken_for_the_divisor_by_a_pick() {
    // a setup, a weight, two packets that open
    let complaint = is_found(&LargestForDivisor, 4);
    assert!(complaint.contains("Walk"), "{complaint}");
}
