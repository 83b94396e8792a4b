//! How a serve ends, and what its other end sees.

use crate::support::{answers, back, from, kept, make, many, opened, refused, world, SERVE};
use agreement::many::call::{Form, Many, Serve};
use agreement::many::other_end::OtherEnd;
use nidhaaguf::raw::COUNTERS;
use reference::packets::{spoil_header, ACK, SYN};

/// A client that opens and goes on, a packet of nobody, an answer: three are accepted.
fn four(serve: Serve) -> Many {
    let packets = vec![from(1, SYN), from(2, ACK), from(1, ACK), back(0, 1, ACK)];
    many(7, packets, Form::Serve(serve))
}

#[test]
fn accepted_ones_are_written_once_and_in_order() {
    let serve = four(SERVE);
    let wanted = make(&world(2), &serve);
    assert_eq!(answers(&wanted), [opened(0), refused(12), kept(0), kept(0)]);
    let written = &wanted.left.seen.written;
    let destinations: Vec<&[u8]> = written.iter().map(|packet| &packet[16..20]).collect();
    assert_eq!(destinations, [[10, 1, 0, 5], [10, 1, 0, 5], [10, 0, 0, 2]]);
    assert_eq!((wanted.left.told.taken, wanted.left.told.unsent), (4, 0));
    assert!(wanted.left.seen.unread.is_empty());
}

#[test]
fn counters_count_each_answer_by_its_way() {
    for counted in [0, 5, u64::MAX] {
        let counters = make(&world(2), &four(Serve { counted, ..SERVE })).left.counters.unwrap();
        let mut wanted = [0; COUNTERS];
        // inbound: one opened, one kept, one refused with 12; outbound: one kept
        (wanted[0], wanted[1], wanted[14], wanted[23 + 1]) = (1, 1, 1, 1);
        assert_eq!(more(&counters, counted), wanted);
    }
}

/// How much was added to each counter.
fn more(counters: &[u64], counted: u64) -> Vec<u64> {
    let before = |place: usize| counted.wrapping_add(place as u64);
    let counters = counters.iter().enumerate();
    counters.map(|(place, counter)| counter.wrapping_sub(before(place))).collect()
}

#[test]
fn bad_checksums_have_the_last_counter_of_each_way() {
    let packets = [from(1, SYN), from(2, SYN), back(0, 1, ACK)].map(|mut packet| {
        spoil_header(&mut packet, 0);
        packet
    });
    let counted = u64::MAX - 22;
    let serve = Form::Serve(Serve { counted, ..SERVE });
    let left = make(&world(2), &many(7, packets.to_vec(), serve)).left;
    let mut wanted = [0; COUNTERS];
    (wanted[22], wanted[45]) = (2, 1);
    assert_eq!(more(&left.counters.unwrap(), counted), wanted);
    assert_eq!((left.told.taken, left.seen.written.len()), (3, 0));
}

#[test]
fn most() {
    for most in 0..=5 {
        for other_end in [OtherEnd::Ending, OtherEnd::Silent] {
            let left = make(&world(2), &four(Serve { most, other_end, ..SERVE })).left;
            assert_eq!(left.told.taken, most.min(4));
            let unread = left.seen.unread.iter().filter(|packet| !packet.is_empty());
            assert_eq!(unread.count(), 4 - most.min(4) as usize);
            assert_eq!(left.would_wait, most == 5 && other_end == OtherEnd::Silent);
        }
    }
}

#[test]
fn an_empty_read_ends_it_whatever_comes_after() {
    let mut serve = four(SERVE);
    serve.packets[2].bytes.clear();
    let left = make(&world(2), &serve).left;
    assert_eq!((left.told.taken, left.seen.written.len()), (2, 1));
    // the answer, and the other end's last word
    assert_eq!(left.seen.unread, [back(0, 1, ACK), Vec::new()]);
}

#[test]
fn what_nobody_receives_is_unsent() {
    let other_end = OtherEnd::Unreceiving;
    let wanted = make(&world(2), &four(Serve { other_end, ..SERVE }));
    assert_eq!(answers(&wanted), [opened(0), refused(12), kept(0), kept(0)]);
    assert_eq!((wanted.left.told.taken, wanted.left.told.unsent), (4, 3));
    assert!(wanted.left.seen.written.is_empty());
}

#[test]
fn a_packet_longer_than_the_buffer_is_cut_and_refused() {
    for (buffer, answer) in [(19, refused(6)), (20, refused(6)), (39, refused(6)), (40, opened(0))]
    {
        let serve = Form::Serve(Serve { buffer, ..SERVE });
        assert_eq!(answers(&make(&world(1), &many(7, vec![from(1, SYN)], serve))), [answer]);
    }
    let none = make(&world(1), &four(Serve { buffer: 0, ..SERVE }));
    assert_eq!((none.left.told.taken, none.left.seen.unread.len()), (0, 5));
}

#[test]
fn a_refused_tick_reads_nothing() {
    let later = make(&world(2), &many(8, Vec::new(), Form::Serve(SERVE))).singly.world;
    let left = make(&later, &four(SERVE)).left;
    assert_eq!((left.told.refusal, left.told.taken), (11, 0));
    assert_eq!(left.seen.unread.len(), 5);
    assert_eq!(left.counters, Some((0..COUNTERS as u64).collect()));
}
