//! Directors' bytes of other layouts than the program's own, for the tests of both kinds.

use live::handover::layout::{bytes_of, crc32};
use live::handover::snapshot::Snapshot;

/// Bytes of the counters of packets of a way: those of 15 refusals in layout 1, of 20 in layout 2, after three of answers.
pub const IN_LAYOUT_1: usize = 8 * (3 + 15);
const IN_LAYOUT_2: usize = 8 * (3 + 20);
/// Bytes after them: nine numbers and the checksum.
pub const AFTER: usize = 8 * 9 + 4;

/// What a program of layout 2 wrote of a director: it had no name, no book, and no counts of resets and IPv6.
pub fn layout_2_of(snapshot: &Snapshot) -> Vec<u8> {
    let mut bytes = bytes_of(snapshot);
    let of_server = 8 * (1 + 6 + 1) + 2 + 1;
    let added = 8 + 4 + 8 * snapshot.entries.len() + of_server * snapshot.servers.len() + 8 * 4;
    let end = bytes.len() - 4;
    bytes.drain(end - added..end);
    numbered(&bytes, 2)
}

/// What a program of layout 1 wrote of a director that has refused nothing with a number above 15.
pub fn layout_1_of(snapshot: &Snapshot) -> Vec<u8> {
    let mut bytes = layout_2_of(snapshot);
    let first = bytes.len() - AFTER - 2 * IN_LAYOUT_2;
    // the later way first: the earlier one stays in its place
    for way in [first + IN_LAYOUT_2, first] {
        let added = bytes.drain(way + IN_LAYOUT_1..way + IN_LAYOUT_2);
        assert!(added.into_iter().all(|byte| byte == 0), "layout 1 has no place for that");
    }
    numbered(&bytes, 1)
}

/// The same bytes under that layout's number, which comes after the mark.
pub fn numbered(bytes: &[u8], layout: u32) -> Vec<u8> {
    let mut bytes = bytes.to_vec();
    bytes[16..20].copy_from_slice(&layout.to_le_bytes());
    with_right_checksum(bytes)
}

/// The same bytes under their right checksum, which are the last four.
pub fn with_right_checksum(mut bytes: Vec<u8>) -> Vec<u8> {
    bytes.truncate(bytes.len().saturating_sub(4));
    let checksum = crc32(&bytes);
    bytes.extend(checksum.to_le_bytes());
    bytes
}
