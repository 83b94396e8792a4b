//! What a serve tells of each packet: five words, and the bytes in the buffer.

use crate::support::{answers, back, from, make, many, opened, refused, world, SERVE, VIRTUAL};
use agreement::many::call::{Form, Serve, FILLED_BYTE, FILLED_WORD};
use agreement::many::ends::LONGEST;
use reference::packets::{self, ACK, RST, SYN};

/// A SYN with bytes that its total length leaves out.
fn with_bytes_behind(number: u32, behind: usize) -> Vec<u8> {
    let mut packet = from(number, SYN);
    packet.resize(40 + behind, 7);
    packet
}

#[test]
fn records_stand_in_the_packets_order() {
    let packets = vec![
        from(1, SYN),
        vec![0; 19],
        with_bytes_behind(2, 3),
        back(0, 1, ACK),
        back(1, 1, ACK),
        from(2, RST),
    ];
    let left = make(&world(2), &many(7, packets, Form::Serve(SERVE))).left;
    let told = [
        [40, 0, 0, 0, 1],
        [19, 0, 6, 0, 0],
        [43, 0, 0, 1, 1],
        [40, 1, 0, 0, 2],
        [40, 1, 12, 0, 0],
        [40, 0, 0, 1, 3],
    ];
    let records = left.records.unwrap();
    assert_eq!(records[..30], told.concat());
    assert_eq!(records.len(), SERVE.words);
    assert!(records[30..].iter().all(|&word| word == FILLED_WORD));
}

#[test]
fn packets_stand_one_behind_the_other() {
    let refused = from(3, ACK);
    let packets = vec![with_bytes_behind(1, 3), refused.clone(), from(2, SYN), back(0, 1, ACK)];
    let left = make(&world(2), &many(7, packets, Form::Serve(SERVE))).left;
    let bytes = left.bytes.unwrap();
    // the first server, and the bytes behind the packet's total length
    assert_eq!((&bytes[16..20], &bytes[40..43]), (&[10, 1, 0, 5][..], &[7, 7, 7][..]));
    assert_eq!(bytes[43..83], refused);
    assert_eq!(bytes[83 + 16..83 + 20], [10, 1, 0, 6]);
    // it comes from the virtual address
    assert_eq!(bytes[123 + 12..123 + 16], [192, 0, 2, 10]);
    let written = &left.seen.written;
    assert_eq!(written.concat(), [&bytes[..43], &bytes[83..163]].concat());
    assert!(bytes[163..].iter().all(|&byte| byte == FILLED_BYTE));
}

/// A packet of the greatest length, with bytes behind it or not, is never cut where it isn't the first.
#[test]
fn the_longest() {
    let mut plan = packets::tcp((0x0A00_0001, 40_000), VIRTUAL, SYN);
    plan.data = vec![3; 65_535 - 40];
    for length in [65_535, 65_536, 65_537, 70_000] {
        let mut longest = plan.build();
        longest.resize(length, 7);
        let packets = vec![from(1, SYN), longest, from(2, SYN)];
        let just = Serve { buffer: LONGEST + 40, ..SERVE };
        let wanted = make(&world(3), &many(7, packets.clone(), Form::Serve(just)));
        assert_eq!(answers(&wanted), [opened(0), opened(1)]);
        // a datagram that is longer than any packet is cut by the room that there is, and no sooner
        assert_eq!(wanted.left.records.unwrap()[5], length.min(LONGEST) as u32);
        let more = Serve { buffer: LONGEST + 40 + 70_000, ..SERVE };
        let wanted = make(&world(3), &many(7, packets, Form::Serve(more)));
        assert_eq!(wanted.left.records.unwrap()[5], length as u32);
        assert_eq!(wanted.singly.steps.len(), 3);
    }
}

/// Neither records nor buffer of a refused tick are touched.
#[test]
fn a_refused_tick_tells_nothing() {
    let later = make(&world(2), &many(8, Vec::new(), Form::Serve(SERVE))).singly.world;
    let left = make(&later, &many(7, vec![from(1, SYN)], Form::Serve(SERVE))).left;
    assert_eq!(left.told.refusal, 11);
    assert!(left.records.unwrap().iter().all(|&word| word == FILLED_WORD));
    assert!(left.bytes.unwrap().iter().all(|&byte| byte == FILLED_BYTE));
}

/// A cut packet is refused, unless the bytes that are cut off are none of its own.
#[test]
fn what_a_cut_leaves() {
    for (buffer, answer) in [(39, refused(6)), (40, opened(0)), (42, opened(0))] {
        let serve = Form::Serve(Serve { buffer, ..SERVE });
        let wanted = make(&world(1), &many(7, vec![with_bytes_behind(1, 3)], serve));
        assert_eq!(answers(&wanted), [answer]);
        assert_eq!(wanted.left.records.unwrap()[0], buffer as u32);
    }
}
