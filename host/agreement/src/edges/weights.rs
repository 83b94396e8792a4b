//! Edges of the largest weight and the divisor that the state holds.

use super::{Edge, Moment};
use crate::call::Call;
use reference::{weights, State, PLACES};

pub const EDGES: [Edge; 16] = [
    ("weight: largest alone changes", |m| weighed(m) == Some((true, false))),
    ("weight: divisor alone changes", |m| weighed(m) == Some((false, true))),
    ("weight: both change", |m| weighed(m) == Some((true, true))),
    ("weight: another, neither changes", |m| weighed(m) == Some((false, false))),
    ("weight: changes, scheduler 1", |m| weighed_by(m, 1)),
    ("weight: changes, scheduler 2", |m| weighed_by(m, 2)),
    ("weight: changes, scheduler 3", |m| weighed_by(m, 3)),
    ("weight: changes, scheduler 4", |m| weighed_by(m, 4)),
    ("weight: the last above 0 to 0", |m| {
        weighed(m).is_some() && m.after.state.weights().all(|weight| weight == 0)
    }),
    ("weight: the first above 0", |m| weighed(m).is_some() && m.is_weightless()),
    ("set up: all weights 0", |m| is_setup(m, true) && numbers(&m.after.state) == (0, 0)),
    ("set up: others past the last", |m| is_setup(m, true) && is_other_with_all_places(m)),
    ("set up: wrong ones before", |m| is_setup(m, true) && is_wrong(&m.before.state)),
    ("set up: refused, wrong ones stay", |m| is_setup(m, false) && is_wrong(&m.after.state)),
    ("opened, level dropped by 2 or more", |m| m.opened(2) && dropped(m) >= 2),
    ("opened, level back at the largest", |m| m.opened(2) && is_back_at_largest(m)),
];

fn numbers(state: &State) -> (u16, u16) {
    (state.largest_weight, state.weight_divisor)
}

fn true_numbers(mut state: State) -> (u16, u16) {
    weights::make_true(&mut state);
    numbers(&state)
}

fn is_wrong(state: &State) -> bool {
    numbers(state) != true_numbers(*state)
}

/// Whether largest weight and divisor were changed by a weight that was set to another.
fn weighed(moment: &Moment) -> Option<(bool, bool)> {
    let (before, after) = (&moment.before.state, &moment.after.state);
    let is_other = matches!(moment.call, Call::SetWeight { .. }) && before.servers != after.servers;
    is_other.then(|| {
        let ((largest, divisor), now) = (numbers(before), numbers(after));
        (largest != now.0, divisor != now.1)
    })
}

/// Either was changed by a weight, under this scheduler.
fn weighed_by(moment: &Moment, scheduler: u8) -> bool {
    let is_changed = weighed(moment).is_some_and(|(largest, divisor)| largest || divisor);
    is_changed && moment.before.state.service.scheduler == scheduler
}

fn is_setup(moment: &Moment, accepted: bool) -> bool {
    matches!(moment.call, Call::SetUp { .. }) && moment.refusal().is_none() == accepted
}

/// They would be others if the places past the last server were read.
fn is_other_with_all_places(moment: &Moment) -> bool {
    let Call::SetUp { servers, .. } = moment.call else { return false };
    let mut all = State { servers: **servers, ..moment.after.state };
    all.service.servers = PLACES as u32;
    true_numbers(all) != numbers(&moment.after.state)
}

/// By how much an opening of scheduler 2 has lowered the level.
fn dropped(moment: &Moment) -> u16 {
    moment.before.state.walk.level.saturating_sub(moment.after.state.walk.level)
}

/// From a level that was not the largest; not at the walk's start.
fn is_back_at_largest(moment: &Moment) -> bool {
    let (before, after) = (&moment.before.state, &moment.after.state);
    let largest = after.largest_weight;
    (1..largest).contains(&before.walk.level) && after.walk.level == largest
}
