//! What a burst is lent: lengths at their edges, and parts that no packet has.

use crate::support::{answers, from, make, many, opened, refused, world, BURST, VIRTUAL};
use agreement::call::Told;
use agreement::many::call::{Burst, Form, FILLED_BYTE};
use reference::packets::{self, SYN};

/// The answer to a packet whose record tells this length.
fn told_to_have(length: u32, bytes: Vec<u8>) -> Told {
    let mut burst = many(7, vec![bytes], BURST);
    burst.packets[0].length = length;
    answers(&make(&world(1), &burst))[0]
}

/// A SYN of so many bytes.
fn of_total(total: usize) -> Vec<u8> {
    let mut plan = packets::tcp((0x0A00_0001, 40_000), VIRTUAL, SYN);
    plan.data = vec![3; total - 40];
    plan.build()
}

#[test]
fn lengths() {
    for length in [0, 19, 20, 39] {
        assert_eq!(told_to_have(length, from(1, SYN)), refused(6), "{length}");
    }
    // what stands behind the packet's own end is no part of it
    for length in [40, 41, 2_047, 2_048, 2_049, 4_096, 65_576, 1 << 31, u32::MAX] {
        assert_eq!(told_to_have(length, from(1, SYN)), opened(0), "{length}");
    }
}

#[test]
fn a_packet_that_fills_its_place() {
    assert_eq!(told_to_have(2_048, of_total(2_048)), opened(0));
    assert_eq!(told_to_have(u32::MAX, of_total(2_048)), opened(0));
    assert_eq!(told_to_have(2_047, of_total(2_048)), refused(6));
    assert_eq!(told_to_have(u32::MAX, of_total(2_049)), refused(6));
}

/// Neither a part of a place nor one of a record makes a packet more; what is lent past the last packet stays.
#[test]
fn more_of_one_than_of_the_other() {
    for size in [0, 1, 7] {
        for (places, bytes) in [(0, 0), (0, 2_047), (3, 0), (3, 1)] {
            packets_are(size, Burst { places, bytes, ..Burst::default() });
        }
        for (records, words) in [(0, 3), (3, 0), (3, 1)] {
            packets_are(size, Burst { records, words, ..Burst::default() });
        }
        packets_are(size, Burst { bytes: 2_047, records: 5, ..Burst::default() });
        packets_are(size, Burst { places: 5, words: 3, ..Burst::default() });
    }
}

fn packets_are(size: u32, burst: Burst) {
    let clients = (0..size).map(|number| from(number, SYN)).collect();
    let wanted = make(&world(10), &many(7, clients, Form::Burst(burst)));
    assert_eq!(answers(&wanted).len(), size as usize);
    assert_eq!(
        wanted.left.records.unwrap().len(),
        4 * (size as usize + burst.records) + burst.words
    );
}

/// The bytes and words that the comparison looks at are those of the packets.
#[test]
fn a_record_is_written_beside_its_own_packet() {
    let packets = vec![from(1, SYN), vec![0; 19], from(2, SYN)];
    let left = make(&world(2), &many(7, packets, BURST)).left;
    let filled: Vec<u32> = vec![40, 0, 0, 1, 19, 6, 0, 0, 40, 0, 1, 1];
    assert_eq!(left.records, Some(filled));
    let bytes = left.bytes.unwrap();
    assert_eq!(bytes[16..20], [10, 1, 0, 5]);
    assert_eq!(bytes[4_096 + 16..4_096 + 20], [10, 1, 0, 6]);
    assert!(bytes[40..2_048].iter().all(|&byte| byte == FILLED_BYTE));
}
