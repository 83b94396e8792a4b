//! The largest weight and the greatest common divisor of the weights, for the state to hold.

use crate::data::State;

/// "Setup and weight setting keep them true."
pub fn make_true(state: &mut State) {
    state.largest_weight = state.weights().max().unwrap_or(0);
    // "(zeros don't affect it)"
    state.weight_divisor = state.weights().fold(0, common_divisor);
}

/// Euclid; 0 with any number is that number.
fn common_divisor(a: u16, b: u16) -> u16 {
    match b {
        0 => a,
        _ => common_divisor(b, a % b),
    }
}
