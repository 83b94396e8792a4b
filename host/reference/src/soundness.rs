//! Refusal 15: "Sound means".

use crate::connection;
use crate::data::*;
use crate::scheduler;
use crate::settings;
use crate::table::{self, Slot, FREE};

/// Whether a handed-in state and row are sound, rule by rule.
pub fn is_sound(state: &State, row: &[u32]) -> bool {
    // "the rules of 1 to 4 hold" (and from here on servers is 1..64, the row whole slots)
    settings::judge(&state.service, &state.servers, row.len()).is_ok()
        && unused_places_are_zeros(state)
        && slots_are_sound(state, row)
        && counts_are_true(state, row)
        && is_largest_weight_true(state)
        && is_weight_divisor_true(state)
        && scheduler::walk_in_range(state)
}

/// "unused server places are zeros"
fn unused_places_are_zeros(state: &State) -> bool {
    state.servers[state.service.servers as usize..]
        .iter()
        .all(|server| *server == Server::default())
}

fn slots_are_sound(state: &State, row: &[u32]) -> bool {
    table::numbers(row).all(|number| slot_is_sound(state, table::read(row, number)))
}

/// "a free slot is all zeros; a used slot has phase 1 to 4 (UDP: 1), port at most 65,535,
/// an existing server, last-seen not after the clock"
fn slot_is_sound(state: &State, slot: Slot) -> bool {
    if !slot.is_used() {
        return slot == FREE;
    }
    connection::phase_in_range(state.service.protocol, slot.phase)
        && slot.port <= 0xFFFF
        && slot.server < state.service.servers
        && slot.last_seen <= state.clock
}

/// "each count equals the used slots naming that server"
fn counts_are_true(state: &State, row: &[u32]) -> bool {
    let mut counts = [0u32; PLACES];
    for number in table::numbers(row) {
        let slot = table::read(row, number);
        if slot.is_used() {
            // in range: slots_are_sound came first
            counts[slot.server as usize] += 1;
        }
    }
    let servers = state.servers.iter();
    servers.zip(counts).all(|(server, count)| server.count == count)
}

/// "that they agree with the weights": it is some server's weight, and none is above it.
fn is_largest_weight_true(state: &State) -> bool {
    let largest = state.largest_weight;
    state.weights().any(|weight| weight == largest)
        && state.weights().all(|weight| weight <= largest)
}

/// It divides every weight, and no larger number does; 0 where every weight is 0.
fn is_weight_divisor_true(state: &State) -> bool {
    let divisor = state.weight_divisor;
    let Some(smallest) = state.weights().filter(|&weight| weight > 0).min() else {
        return divisor == 0;
    };
    let divides_all = |number| state.weights().all(|weight| weight % number == 0);
    // what divides every weight is a divisor of the smallest above 0
    let mut larger = divisors(smallest).filter(|&number| number > divisor);
    divisor > 0 && divides_all(divisor) && !larger.any(divides_all)
}

/// All divisors of a number that isn't 0: each up to its root, beside the quotient.
fn divisors(number: u16) -> impl Iterator<Item = u16> {
    let low = (1..=number.isqrt()).filter(move |low| number.is_multiple_of(*low));
    low.flat_map(move |low| [low, number / low])
}
