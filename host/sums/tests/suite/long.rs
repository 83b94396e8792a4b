//! Lengths about that of the longest packet, and longer ones.

use crate::compare::same_sum;
use crate::drawn;
use crate::edges::{check_01_at, check_one_kind};
use random::Rng;

/// The law's longest multiple of four, the longest packet, the first length past 16 bits, and twice the first.
const BOUNDS: [usize; 4] = [65_532, 65_535, 65_536, 2 * 65_532];

/// Every length within a few of them.
fn lengths() -> impl Iterator<Item = usize> {
    BOUNDS.into_iter().flat_map(|bound| bound - 5..=bound + 5)
}

#[test]
fn bytes_of_one_kind() {
    lengths().for_each(check_one_kind);
}

#[test]
fn the_last_bytes_count_by_their_place() {
    for length in lengths() {
        (length - 8..length).for_each(|at| check_01_at(length, at));
    }
}

#[test]
fn drawn_bytes_about_the_bounds() {
    let mut rng = Rng::new(5);
    for length in lengths() {
        same_sum(&drawn::bytes(&mut rng, length));
        assert_eq!(same_sum(&drawn::bytes_of_sum_ffff(&mut rng, length)), 0xFFFF);
    }
}

#[test]
fn drawn_lengths() {
    let mut rng = Rng::new(6);
    for _ in 0..200 {
        let length = rng.below(200_001);
        same_sum(&drawn::bytes(&mut rng, length));
    }
}

/// The groups sum to 2^48 + FFFF, of which three folds leave 10000. The sum of fewer groups never needs a fourth.
#[test]
fn so_long_that_three_folds_are_too_few() {
    let mut bytes = vec![0xFF; 4 * 65_536];
    bytes.extend([0x00, 0x01, 0xFF, 0xFF]);
    assert_eq!(same_sum(&bytes), 0x0001);
}
