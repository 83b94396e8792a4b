//! "Who is picked": the four schedulers and their walk.

use crate::data::*;

/// Where setup puts the walk.
pub fn start(service: &Service) -> Walk {
    match service.scheduler {
        // "last pick starts at n−1"
        ROUND_ROBIN => Walk { place: i64::from(service.servers) - 1, level: 0 },
        // "place i starts at −1, level cw at 0"
        WEIGHTED_ROUND_ROBIN => Walk { place: -1, level: 0 },
        _ => Walk { place: 0, level: 0 },
    }
}

/// The walk's range, scheduler by scheduler. Counts on a state whose largest weight is true.
pub fn walk_in_range(state: &State) -> bool {
    let (n, walk) = (i64::from(state.service.servers), state.walk);
    match state.service.scheduler {
        // "Range 0..n−1" and "1 holds cw at 0"
        ROUND_ROBIN => (0..n).contains(&walk.place) && walk.level == 0,
        // "i −1..n−1, cw 0 to the largest weight, cw 0 only with i = −1"
        WEIGHTED_ROUND_ROBIN => {
            (-1..n).contains(&walk.place)
                && walk.level <= state.largest_weight
                && (walk.level != 0 || walk.place == -1)
        }
        // "3 and 4 hold both place and cw at 0 always, and that is their range"
        _ => walk.place == 0 && walk.level == 0,
    }
}

/// "A weight set to a different number restarts this walk"; 1, 3 and 4 keep theirs.
pub fn after_weight_change(service: &Service, walk: Walk) -> Walk {
    match service.scheduler {
        WEIGHTED_ROUND_ROBIN => start(service),
        _ => walk,
    }
}

/// The pick and the walk after it. Counts on a sound state with a weight above 0: "A pick happens only
/// after 13 and 14 are passed."
pub fn pick(state: &State) -> (ServerNumber, Walk) {
    let (servers, walk) = (state.used_servers(), state.walk);
    match state.service.scheduler {
        ROUND_ROBIN => round_robin(state),
        WEIGHTED_ROUND_ROBIN => weighted_round_robin(state),
        LEAST_CONNECTION => (least(servers, |_| 1), walk),
        _ => (least(servers, |server| u64::from(server.weight)), walk),
    }
}

/// 1: "the next number in the ring with weight above 0"
fn round_robin(state: &State) -> (ServerNumber, Walk) {
    let step = |walk: Walk| Walk { place: next_in_ring(state, walk), ..walk };
    first_in_ring(state, step, |server, _| server.weight > 0)
}

/// 2: "The first server with weight at least cw is picked." One of the largest weight stands in the
/// ring, and cw is never above it.
fn weighted_round_robin(state: &State) -> (ServerNumber, Walk) {
    let step = |walk| weighted_step(state, walk);
    first_in_ring(state, step, |server, level| server.weight >= level)
}

/// "i becomes (i+1) mod n; if i is 0, cw drops by the greatest common divisor of all weights,
/// and if not above 0 becomes the largest weight"; "scheduler 2's pick takes them from there"
fn weighted_step(state: &State, walk: Walk) -> Walk {
    let place = next_in_ring(state, walk);
    if place != 0 {
        return Walk { place, level: walk.level };
    }
    let level = match walk.level.checked_sub(state.weight_divisor) {
        None | Some(0) => state.largest_weight,
        Some(above) => above,
    };
    Walk { place, level }
}

fn next_in_ring(state: &State, walk: Walk) -> i64 {
    (walk.place + 1) % i64::from(state.service.servers)
}

/// Steps until a server fits. Some server of the ring does, so at most n−1 are passed, and behind
/// n−1 that don't fit stands the one that does.
fn first_in_ring(
    state: &State,
    step: impl Fn(Walk) -> Walk,
    fits: impl Fn(&Server, u16) -> bool,
) -> (ServerNumber, Walk) {
    let servers = state.used_servers();
    let mut walk = step(state.walk);
    for _ in 1..servers.len() {
        if fits(&servers[walk.place as usize], walk.level) {
            break;
        }
        walk = step(walk);
    }
    (ServerNumber(walk.place as usize), walk)
}

/// 3 and 4: smallest count/divisor among weights above 0, "compared by cross products; ties to
/// the lowest number". 3 divides by 1.
fn least(servers: &[Server], divisor: impl Fn(&Server) -> u64) -> ServerNumber {
    let is_smaller = |one: &Server, other: &Server| {
        u64::from(one.count) * divisor(other) < u64::from(other.count) * divisor(one)
    };
    let mut best = 0;
    for (number, server) in servers.iter().enumerate() {
        let held = &servers[best];
        // the first one is held whatever its weight; at weight 0 it gives way to any above 0
        if server.weight > 0 && (held.weight == 0 || is_smaller(server, held)) {
            best = number;
        }
    }
    ServerNumber(best)
}
