//! Behind which packet a serve ends, and that it reads no further.

use crate::support::{back, from, make, many, world, SERVE};
use agreement::many::call::{Form, Serve};
use agreement::many::ends::{Ended, Reasons, LONGEST};
use agreement::many::other_end::OtherEnd;
use reference::packets::{spoil_header, ACK, SYN};

const NONE: Reasons = Reasons { most: false, records: false, room: false, stop: false };

/// Five packets of 40 bytes: opened, 12, 20, 12, kept.
fn five() -> Vec<Vec<u8>> {
    let mut bad = from(1, ACK);
    spoil_header(&mut bad, 0);
    vec![from(1, SYN), from(2, ACK), bad, from(3, ACK), back(0, 1, ACK)]
}

/// How many of the five are taken, and why it ends there; the others must be unread.
fn ended(serve: Serve) -> (usize, Ended) {
    let wanted = make(&world(2), &many(7, five(), Form::Serve(serve)));
    let taken = wanted.singly.steps.len();
    let unread = wanted.left.seen.unread.iter().filter(|packet| !packet.is_empty());
    assert_eq!((wanted.left.told.taken as usize, unread.count()), (taken, 5 - taken));
    (taken, wanted.ended.unwrap())
}

/// The same with either other end, of which the second lets a read fail where it has nothing to give.
fn ended_with_both(serve: Serve) -> (usize, Ended) {
    let waiting = ended(serve);
    assert_eq!(ended(Serve { other_end: OtherEnd::Silent, ..serve }), waiting);
    waiting
}

#[test]
fn most_and_records() {
    let (by_most, by_records) = (Reasons { most: true, ..NONE }, Reasons { records: true, ..NONE });
    for number in 0..=5 {
        let most = ended_with_both(Serve { most: number, ..SERVE });
        assert_eq!(most, (number as usize, Ended::Without(by_most)));
        for part in 0..5 {
            let words = 5 * number as usize + part;
            let records = ended_with_both(Serve { words, ..SERVE });
            assert_eq!(records, (number as usize, Ended::Without(by_records)));
        }
        let by_both = Reasons { most: true, records: true, ..NONE };
        let both = ended_with_both(Serve { most: number, words: 5 * number as usize, ..SERVE });
        assert_eq!(both, (number as usize, Ended::Without(by_both)));
    }
    for serve in [Serve { most: 6, ..SERVE }, Serve { words: 30, ..SERVE }, SERVE] {
        assert_eq!(ended(serve), (5, Ended::ByAnEmptyRead));
        let silent = Serve { other_end: OtherEnd::Silent, ..serve };
        assert_eq!(ended(silent), (5, Ended::ByAFailedRead));
    }
}

#[test]
fn room() {
    let by_room = Ended::Without(Reasons { room: true, ..NONE });
    for buffer in [1, 19, 20, 40, 2_048, 65_535, LONGEST, LONGEST + 39] {
        assert_eq!(ended_with_both(Serve { buffer, ..SERVE }), (1, by_room), "{buffer}");
    }
    for taken in 2..=5 {
        // the last of them found just 65,536 bytes, or all but one of the bytes for another
        for behind in [0, 1, 39] {
            let buffer = LONGEST + 40 * (taken - 1) + behind;
            assert_eq!(ended_with_both(Serve { buffer, ..SERVE }), (taken, by_room));
        }
    }
    assert_eq!(ended(Serve { buffer: LONGEST + 200, ..SERVE }), (5, Ended::ByAnEmptyRead));
}

#[test]
fn stop() {
    let by_stop = Ended::Without(Reasons { stop: true, ..NONE });
    assert_eq!(ended_with_both(Serve { stop: 12, ..SERVE }), (2, by_stop));
    assert_eq!(ended_with_both(Serve { stop: 20, ..SERVE }), (3, by_stop));
    // no packet's refusal: a tick's, a setup's, not given at all, or with bits that 12 has not
    let other_than_any = [0, 1, 5, 6, 11, 13, 14, 15, 16, 19, 21];
    let with_more_bits = [256 + 12, 65_536 + 12, (1 << 31) + 12, u32::MAX];
    for stop in other_than_any.into_iter().chain(with_more_bits) {
        assert_eq!(ended(Serve { stop, ..SERVE }), (5, Ended::ByAnEmptyRead), "{stop}");
    }
}

#[test]
fn all_at_once() {
    let serve = Serve { most: 2, words: 14, buffer: LONGEST + 40, stop: 12, ..SERVE };
    let by_all = Reasons { most: true, records: true, room: true, stop: true };
    assert_eq!(ended_with_both(serve), (2, Ended::Without(by_all)));
}

/// An empty datagram is no packet, whatever is lent; where none may be taken it isn't read.
#[test]
fn an_empty_datagram() {
    let taken_of = |serve: Serve| {
        let packets = vec![from(1, SYN), Vec::new(), from(2, SYN)];
        let left = make(&world(2), &many(7, packets, Form::Serve(serve))).left;
        (left.told.taken, left.seen.unread.len())
    };
    assert_eq!(taken_of(SERVE), (1, 2));
    assert_eq!(taken_of(Serve { most: 1, ..SERVE }), (1, 3));
    assert_eq!(taken_of(Serve { words: 9, ..SERVE }), (1, 3));
    assert_eq!(taken_of(Serve { buffer: LONGEST + 39, ..SERVE }), (1, 3));
    assert_eq!(taken_of(Serve { buffer: LONGEST + 40, ..SERVE }), (1, 2));
}
