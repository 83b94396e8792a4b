//! The one's complement sum of some bytes, by each side.

use crate::plain;
use reference::checksum::{fold, sum};
use std::hint::black_box;

/// A sum of bytes.
pub type Sum = fn(&[u8]) -> u16;

pub fn of_side(side: &str) -> Option<Sum> {
    match side {
        "library" => Some(sums::ones_sum),
        "reference" => Some(by_reference),
        "plain" => Some(plain::ones_sum),
        _ => None,
    }
}

fn by_reference(bytes: &[u8]) -> u16 {
    fold(sum(bytes))
}

/// The sum of so many bytes, repeated. That it was right each time is asked for once they are all over.
pub fn repeated(one: Sum, length: usize, reps: usize) -> u64 {
    let bytes: Vec<u8> = (0..length).map(|at| at as u8).collect();
    let mut told = 0;
    for _ in 0..reps {
        // bytes that may be others each time, so that no sum is taken from the one before
        told += u64::from(one(black_box(&bytes)));
    }
    assert_eq!(told, reps as u64 * u64::from(by_reference(&bytes)));
    told
}
