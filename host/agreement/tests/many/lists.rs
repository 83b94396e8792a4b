//! What happens from packet to packet within one burst or serve.

use crate::support::{back, both, ended, from, kept, opened, refused, world};
use agreement::worlds::breaks::BREAKS;
use agreement::worlds::sound;
use random::Rng;
use reference::packets::{mend_header, spoil_header, ACK, FIN, RST, SYN};

#[test]
fn one_client_opens_finishes_resets_and_opens_again() {
    let packets = vec![
        from(1, SYN),
        from(1, FIN | ACK),
        back(0, 1, FIN | ACK),
        // both have finished: this SYN ends that connection and opens another
        from(1, SYN),
        from(1, RST),
        from(1, ACK),
        from(1, SYN),
        back(0, 1, ACK),
    ];
    let (answers, after) = both(&world(3), 7, packets);
    let wanted =
        [opened(0), kept(0), kept(0), opened(1), ended(1), refused(12), opened(0), kept(0)];
    assert_eq!(answers, wanted);
    assert_eq!(after.counts(), [1, 0]);
}

/// Bad checksums of both ways, and beside other faults, between packets that are taken.
#[test]
fn bad_checksums_change_nothing() {
    let bad = |mut packet: Vec<u8>| {
        spoil_header(&mut packet, 0);
        packet
    };
    let mut fragment = from(1, SYN);
    fragment[6] |= 0x20;
    mend_header(&mut fragment);
    let mut cut = bad(from(1, SYN));
    cut.truncate(39);
    let packets = vec![
        bad(from(1, SYN)),
        from(1, SYN),
        bad(from(1, RST)),
        bad(back(0, 1, RST)),
        fragment.clone(),
        bad(fragment),
        cut,
        bad(from(2, ACK)),
        back(0, 1, ACK),
    ];
    let (answers, after) = both(&world(1), 7, packets);
    let refusals = [20, 0, 20, 20, 7, 20, 6, 20, 0];
    assert_eq!(answers.iter().map(|told| told.refusal).collect::<Vec<_>>(), refusals);
    assert_eq!((answers[1], answers[8], after.counts()), (opened(0), kept(0), vec![1, 0]));
}

#[test]
fn a_table_that_gets_full() {
    let packets =
        vec![from(1, SYN), from(2, SYN), from(3, SYN), back(1, 2, RST), from(3, SYN), from(4, SYN)];
    let (answers, after) = both(&world(2), 7, packets);
    // the walk doesn't move at 13: server 0 is next
    assert_eq!(answers, [opened(0), opened(1), refused(13), ended(1), opened(0), refused(13)]);
    assert_eq!(after.counts(), [2, 0]);
}

#[test]
fn removal_by_the_tick() {
    let (_, opened_at_7) = both(&world(1), 7, vec![from(1, SYN)]);
    // not idle yet; then idle, and its slot is taken
    assert_eq!(both(&opened_at_7, 906, vec![from(2, SYN)]).0, [refused(13)]);
    let (answers, after) = both(&opened_at_7, 907, vec![from(1, ACK), from(2, SYN)]);
    assert_eq!(answers, [refused(12), opened(1)]);
    assert_eq!((after.state.clock, after.counts()), (907, vec![0, 1]));
    // without any packet, too
    let (_, after) = both(&opened_at_7, 907, Vec::new());
    assert_eq!((after.state.clock, after.counts()), (907, vec![0, 0]));
}

#[test]
fn an_earlier_clock_changes_nothing() {
    let (_, before) = both(&world(2), 7, vec![from(1, SYN)]);
    let (answers, after) = both(&before, 6, vec![from(1, ACK), from(2, SYN)]);
    assert!(answers.is_empty());
    assert_eq!(after, before);
}

#[test]
fn no_packet_of_an_unsound_state_is_taken() {
    let mut rng = Rng::new(4);
    for broken in &BREAKS {
        let mut world = sound::world(&mut rng);
        while !(broken.apply)(&mut rng, &mut world) {
            world = sound::world(&mut rng);
        }
        let clock = world.state.clock;
        let (answers, after) = both(&world, clock, vec![from(1, SYN), from(2, SYN)]);
        assert!(answers.is_empty(), "{}", broken.rule);
        assert_eq!(after, world, "{}", broken.rule);
    }
}

/// Clients open, and servers answer: in turn, until so many packets are there.
#[test]
fn sizes() {
    for size in [0, 1, 2, 7, 64, 300] {
        let packet = |number: u32| match number % 2 {
            0 => from(number / 2, SYN),
            _ => back(number / 2 % 2, number / 2, SYN | ACK),
        };
        let (answers, after) = both(&world(150), 7, (0..size).map(packet).collect());
        let answer = |number: u32| match number % 2 {
            0 => opened(number / 2 % 2),
            _ => kept(number / 2 % 2),
        };
        assert_eq!(answers, (0..size).map(answer).collect::<Vec<_>>());
        assert_eq!(after.counts().iter().sum::<u32>(), size.div_ceil(2));
    }
}

/// To the virtual address, but to no known port; and to a client that has the virtual address.
#[test]
fn the_way_is_told_by_the_address_alone() {
    let mut other_port = from(1, SYN);
    other_port[22] ^= 1;
    let mut to_the_virtual_address = back(0, 1, ACK);
    to_the_virtual_address[16..20].copy_from_slice(&[192, 0, 2, 10]);
    reference::packets::mend_header(&mut to_the_virtual_address);
    let mut from_nobody = back(0, 1, ACK);
    from_nobody[20] ^= 1;
    let packets = vec![other_port, to_the_virtual_address, from_nobody];
    assert_eq!(both(&world(1), 7, packets).0, [refused(10); 3]);
}
