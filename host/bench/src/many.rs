//! Many packets in one call: by `serve` from a socket, by `burst` from a buffer. That each was answered as is meant to be measured is
//! asked for, once the call is over.

use crate::scene::{Call, Scene, CLOCK};
use nidhaaguf::raw;
use std::os::fd::AsFd;
use std::os::unix::net::UnixDatagram;

/// How a packet is answered: its counter in a serve, its change in a burst's record.
fn answered(call: Call) -> (usize, u32) {
    match call {
        Call::Opening => (0, 1),
        Call::Outbound => (raw::COUNTERS / 2 + 1, 2),
        _ => (1, 2),
    }
}

/// So many packets, served by one call. (A socket's queue takes about ten.)
pub fn served(scene: &mut Scene, packets: usize) -> u64 {
    let (ours, theirs) = UnixDatagram::pair().expect("a pair of sockets");
    theirs.set_nonblocking(true).expect("a socket that doesn't wait");
    for number in 0..packets {
        theirs.send(&scene.fresh_packet(number)).expect("the socket's queue takes so many packets");
    }
    let mut buffer = vec![0; raw::LONGEST + 2_048 * packets];
    let mut records = vec![raw::Traced::default(); packets];
    let mut counters = [0; raw::COUNTERS];
    let (descriptor, most) = (ours.as_fd(), packets as u32);
    let lent = raw::LentToServe {
        row: &mut scene.row,
        buffer: &mut buffer,
        records: raw::traced_words(&mut records),
        counters: &mut counters,
    };
    let served = raw::serve(descriptor, scene.state, lent, CLOCK, most, 0);
    assert_eq!((served.refusal, served.taken, served.unsent), (0, most, 0));
    assert_eq!(counters[answered(scene.call).0], u64::from(most));
    served.taken.into()
}

/// So many packets in one burst.
pub fn burst(scene: &mut Scene, packets: usize) -> u64 {
    let mut bytes = vec![0; packets * raw::PLACE];
    let mut records = vec![raw::Record::default(); packets];
    for (number, record) in records.iter_mut().enumerate() {
        let packet = scene.fresh_packet(number);
        bytes[raw::PLACE * number..][..packet.len()].copy_from_slice(&packet);
        record.length = packet.len() as u32;
    }
    let words = raw::words(&mut records);
    let answer = raw::burst(scene.state, &mut scene.row, &mut bytes, words, CLOCK);
    assert_eq!(answer.refusal, 0);
    let change = answered(scene.call).1;
    assert!(records.iter().all(|record| (record.refusal, record.change) == (0, change)));
    packets as u64
}
