//! A chain of two directors beside one director from the first virtual end to the last server.

use crate::chain::{plan, set_up, Packet, CLIENT, KINDS};
use crate::support::{refused, told};
use agreement::call::hex;
use agreement::choose::sums::{give_header_sum, make_transport_verify};
use agreement::many::singly::Way;
use reference::checksum::{edit_address, edit_word};
use reference::data::{TCP, UDP};
use reference::packets::{End, Plan, Sum};

/// Address words of FFFF and 0, ports of FFFF and 1, and an ordinary end.
const ENDS: [End; 7] = [
    (0x0A01_FFFF, 0xFFFF),
    (0x0A02_0000, 0x0001),
    (0xFFFF_FFFF, 0xFFFF),
    (0x0000_0001, 0x0001),
    (0xFFFF_0000, 0xFFFF),
    (0x0000_FFFF, 0x0001),
    (0xC000_020A, 0x1538),
];

/// Checks that two directors leave what one leaves, and gives that.
pub fn same_as_one_director(packet: &Packet, ends: [End; 3]) -> Packet {
    let by_two = packet.through(&ends);
    let by_one = packet.through(&[ends[0], ends[2]]);
    assert_eq!(hex(&by_two.bytes), hex(&by_one.bytes), "{ends:X?}, from {packet:X?}");
    by_two
}

/// Both checksums are the given one; the header's is valid, the transport's is valid or any.
fn with_checksums(kind: (u8, Way), ends: [End; 3], checksum: u16, is_valid: bool) -> Packet {
    let transport_sum = Sum::Given(checksum);
    let plan = Plan { transport_sum, data: vec![0x5A; 4], ..plan(kind, CLIENT, &ends) };
    let mut bytes = plan.build();
    if is_valid {
        make_transport_verify(&mut bytes, &plan);
    }
    give_header_sum(&mut bytes, checksum);
    Packet { way: kind.1, client: CLIENT, bytes }
}

/// All choices of three ends.
fn choices() -> impl Iterator<Item = [End; 3]> {
    let n = ENDS.len();
    (0..n.pow(3)).map(move |choice| [choice / n / n, choice / n % n, choice % n].map(|at| ENDS[at]))
}

fn check_edges(kind: (u8, Way), ends: [End; 3]) {
    for checksum in [0x0000, 0x0001, 0x1234, 0xFFFE, 0xFFFF] {
        same_as_one_director(&with_checksums(kind, ends, checksum, true), ends);
        same_as_one_director(&with_checksums(kind, ends, checksum, false), ends);
    }
}

#[test]
fn two_directors_leave_what_one_leaves() {
    for (kind, ends) in KINDS.iter().flat_map(|&kind| choices().map(move |ends| (kind, ends))) {
        check_edges(kind, ends);
    }
}

#[test]
fn the_exception_of_one_word_is_not_that_of_an_address() {
    let (from, between, to) = (0xFFFF_FFFF, 0x0A01_0005, 0x0000_0001);
    // the upper word alone: FFFF at once, 0000 by another
    assert_eq!(edit_word(0xFFFF, 0xFFFF, 0x0000), 0xFFFF);
    assert_eq!(edit_word(edit_word(0xFFFF, 0xFFFF, 0x0A01), 0x0A01, 0x0000), 0x0000);
    assert_eq!(edit_address(0xFFFF, from, to), 0xFFFE);
    assert_eq!(edit_address(edit_address(0xFFFF, from, between), between, to), 0xFFFE);
    // address 0 would be the exception
    assert_eq!(edit_address(0xFFFF, from, 0), 0xFFFF);
    assert_eq!(edit_address(edit_address(0xFFFF, from, between), between, 0), 0x0000);
}

#[test]
fn setup_refuses_the_ends_that_would_be_the_exception() {
    let (highest, lowest) = ((0xFFFF_FFFF, 0xFFFF), (0x0000_0001, 0x0001));
    let answer = |served, server| [TCP, UDP].map(|protocol| set_up(protocol, served, server).0);
    assert_eq!(answer(highest, lowest), [told(0, 0); 2]);
    assert_eq!(answer(lowest, highest), [told(0, 0); 2]);
    for zero in [(0, 1), (1, 0), (0, 0)] {
        assert_eq!(answer(highest, zero), [refused(3); 2]);
        assert_eq!(answer(zero, highest), [refused(2); 2]);
    }
}
