//! Every length up to some hundreds of bytes.

use crate::compare::same_sum;
use crate::drawn;
use crate::edges::{check_01_at, check_one_kind};
use random::Rng;
use std::ops::RangeInclusive;

const LENGTHS: RangeInclusive<usize> = 0..=300;

/// An empty slice may point to where there is no memory.
#[test]
fn of_no_bytes_none_is_read() {
    assert_eq!(sums::ones_sum(&[]), 0x0000);
}

#[test]
fn bytes_of_one_kind() {
    LENGTHS.for_each(check_one_kind);
}

#[test]
fn each_byte_counts_by_its_place() {
    for length in LENGTHS {
        (0..length).for_each(|at| check_01_at(length, at));
    }
}

#[test]
fn drawn_bytes() {
    let mut rng = Rng::new(1);
    for length in LENGTHS.flat_map(|length| [length; 50]) {
        same_sum(&drawn::bytes(&mut rng, length));
    }
}

#[test]
fn words_that_sum_to_ffff() {
    let mut rng = Rng::new(2);
    for length in LENGTHS.skip(2).flat_map(|length| [length; 50]) {
        assert_eq!(same_sum(&drawn::bytes_of_sum_ffff(&mut rng, length)), 0xFFFF);
    }
}
