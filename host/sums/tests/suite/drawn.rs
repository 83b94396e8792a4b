//! Drawn bytes.

use random::Rng;
use reference::checksum::{fold, sum};

/// So many bytes, some of them 00 and FF: none, half or nearly all.
pub fn bytes(rng: &mut Rng, length: usize) -> Vec<u8> {
    let edges = rng.one_of(&[0, 500, 950]);
    let byte = |_| match rng.permille(edges) {
        true => rng.one_of(&[0x00, 0xFF]),
        false => rng.number() as u8,
    };
    (0..length).map(byte).collect()
}

/// So many bytes, at least two, with one word such that the sum is FFFF, as a valid header's is.
pub fn bytes_of_sum_ffff(rng: &mut Rng, length: usize) -> Vec<u8> {
    let mut bytes = bytes(rng, length);
    let at = 2 * rng.below(length / 2);
    bytes[at..at + 2].fill(0);
    let word = !fold(sum(&bytes));
    bytes[at..at + 2].copy_from_slice(&word.to_be_bytes());
    bytes
}
