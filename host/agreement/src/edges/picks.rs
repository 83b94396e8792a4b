//! Edges of who is picked, and of 14, where nobody is.

use super::{Edge, Moment};
use nidhaaguf::Refusal;
use reference::State;

pub const EDGES: [Edge; 10] = [
    ("14, scheduler 1", |m| is_14(m, 1)),
    ("14, scheduler 2", |m| is_14(m, 2)),
    ("14, scheduler 3", |m| is_14(m, 3)),
    ("14, scheduler 4", |m| is_14(m, 4)),
    ("14, scheduler 1, not at its start", |m| is_14(m, 1) && !is_at_start(&m.before.state)),
    ("only weight comes last, scheduler 1", |m| is_last_picked(m, 1) && has_one_weight(m)),
    ("only weight comes last, scheduler 2", |m| is_last_picked(m, 2) && has_one_weight(m)),
    ("others below the level, last picked", |m| is_last_picked(m, 2) && !has_one_weight(m)),
    ("server 0 passed over, scheduler 3", |m| m.opened(3) && is_first_passed_over(m)),
    ("server 0 passed over, scheduler 4", |m| m.opened(4) && is_first_passed_over(m)),
];

fn is_14(moment: &Moment, scheduler: u8) -> bool {
    moment.refusal() == Some(Refusal::NoWeight)
        && moment.before.state.service.scheduler == scheduler
}

/// "last pick starts at n−1"
fn is_at_start(state: &State) -> bool {
    state.walk.place + 1 == i64::from(state.service.servers)
}

/// An opening in a ring of two or more whose walk has come to every number.
pub fn is_last_of_ring(before: &State, after: &State) -> bool {
    let n = i64::from(before.service.servers);
    n > 1 && after.walk.place == (before.walk.place + n) % n
}

fn is_last_picked(moment: &Moment, scheduler: u8) -> bool {
    moment.opened(scheduler) && is_last_of_ring(&moment.before.state, &moment.after.state)
}

fn has_one_weight(moment: &Moment) -> bool {
    moment.before.state.weights().filter(|&weight| weight > 0).count() == 1
}

/// Server 0 has weight 0, and a lower count than the picked one had.
fn is_first_passed_over(moment: &Moment) -> bool {
    let servers = &moment.after.state.servers;
    let picked = servers[moment.told.number as usize];
    servers[0].weight == 0 && servers[0].count < picked.count - 1
}
