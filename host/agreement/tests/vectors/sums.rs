//! Sums at the bounds of a packet's length, of lengths that are no multiple of four, and of groups that take three folds.

use reference::checksum::{fold, sum};
use std::fmt::Write;

/// The sum of some bytes, on a line of its own.
pub fn summed(text: &mut String, bytes: &[u8]) {
    writeln!(text, "  {:04x}", fold(sum(bytes))).unwrap();
}

fn longest(text: &mut String) {
    text.push_str(
        "sums of 65532 and of 65535 bytes ff; of 65536 bytes, 01 the last and 00 the others\n",
    );
    summed(text, &[0xFF; 65_532]);
    summed(text, &[0xFF; 65_535]);
    let mut bytes = [0x00; 65_536];
    bytes[65_535] = 0x01;
    summed(text, &bytes);
}

fn shortest(text: &mut String) {
    text.push_str("sums of 01 02 03 04 05, and of its first 4, 3, 2, 1 and 0 bytes\n");
    let bytes = [0x01, 0x02, 0x03, 0x04, 0x05];
    (0..=bytes.len()).rev().for_each(|length| summed(text, &bytes[..length]));
}

fn folded(text: &mut String) {
    text.push_str("sum of ff ff ff ff 00 01 00 00, whose two groups take three folds\n");
    summed(text, &[0xFF, 0xFF, 0xFF, 0xFF, 0x00, 0x01, 0x00, 0x00]);
}

pub fn sums(text: &mut String) {
    longest(text);
    shortest(text);
    folded(text);
}
