//! Bytes whose sum is plain: of one kind, and a single 01.

use crate::compare::same_sum;

/// All 00, and all FF.
pub fn check_one_kind(length: usize) {
    assert_eq!(same_sum(&vec![0x00; length]), 0x0000);
    let wanted = match (length, length % 2) {
        (0, _) => 0x0000,
        (_, 0) => 0xFFFF,
        _ => 0xFF00,
    };
    assert_eq!(same_sum(&vec![0xFF; length]), wanted);
}

/// A single 01, and the others 00.
pub fn check_01_at(length: usize, at: usize) {
    let mut bytes = vec![0x00; length];
    bytes[at] = 0x01;
    assert_eq!(same_sum(&bytes), [0x0100, 0x0001][at % 2], "{length} bytes, 01 at {at}");
}
