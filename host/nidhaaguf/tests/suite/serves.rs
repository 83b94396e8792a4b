//! Packets that come by a descriptor.

use crate::support::{settings, syn_from, turned, SYN};
use nidhaaguf::{Change, Counters, Director, End, Refusal, Served, Trace, Way};
use std::io::ErrorKind;
use std::net::Shutdown;
use std::os::unix::net::UnixDatagram;

/// A director with one server and one slot, its descriptor (which doesn't wait) and the other end of that.
pub fn scene() -> (Director, UnixDatagram, UnixDatagram) {
    let director = Director::set_up(&settings(1), 1).unwrap();
    let (device, other_end) = UnixDatagram::pair().unwrap();
    device.set_nonblocking(true).unwrap();
    other_end.set_nonblocking(true).unwrap();
    (director, device, other_end)
}

fn serve(
    director: &mut Director,
    device: &UnixDatagram,
    counters: &mut Counters,
    clock: u32,
) -> Result<Served, Refusal> {
    director.serve(device, &mut Trace::new(3), counters, clock, 3, None)
}

/// The next packet that was written.
pub fn next(other_end: &UnixDatagram) -> Option<Vec<u8>> {
    let mut packet = vec![0; 65_536];
    other_end.recv(&mut packet).ok().map(|length| packet[..length].to_vec())
}

#[test]
fn accepted_packets_are_written_and_all_are_counted() {
    let (mut director, device, other_end) = scene();
    let mut single = director.clone();
    let mut there = SYN;
    single.inbound(&mut there, 1).unwrap();
    let mut back = turned(there);
    for packet in [&SYN[..], &syn_from(40_001), &back] {
        other_end.send(packet).unwrap();
    }
    single.outbound(&mut back, 1).unwrap();

    let mut counters = Counters::new();
    let served = serve(&mut director, &device, &mut counters, 1).unwrap();
    assert_eq!((served.removed, served.taken, served.unsent), (0, 3, 0));
    assert!(matches!(served.end, End::Most));
    let written: Vec<_> = std::iter::from_fn(|| next(&other_end)).collect();
    assert_eq!(written, [there, back]);
    assert_eq!(director, single);
    assert_eq!(counters.accepted(Way::Inbound, Change::Opened), 1);
    assert_eq!(counters.refused(Way::Inbound, Refusal::TableFull), 1);
    assert_eq!(counters.accepted(Way::Outbound, Change::Kept), 1);
    assert_eq!((counters.taken(Way::Inbound), counters.taken(Way::Outbound)), (2, 1));
}

#[test]
fn each_end_is_told() {
    let (mut director, device, other_end) = scene();
    let mut counters = Counters::default();
    let waiting = serve(&mut director, &device, &mut counters, 1).unwrap();
    let End::Failed(error) = waiting.end else { panic!("{waiting:?}") };
    assert_eq!(error.kind(), ErrorKind::WouldBlock);
    other_end.send(&[]).unwrap();
    let empty = serve(&mut director, &device, &mut counters, 1).unwrap();
    assert!(matches!(empty.end, End::Empty), "{empty:?}");
    assert_eq!(serve(&mut director, &device, &mut counters, 0).unwrap_err(), Refusal::EarlierClock);
    assert_eq!((counters, director.clock()), (Counters::new(), 1));
}

#[test]
fn a_packet_that_nobody_takes_is_unsent() {
    let (mut director, device, other_end) = scene();
    other_end.send(&SYN).unwrap();
    other_end.shutdown(Shutdown::Read).unwrap();
    let mut counters = Counters::new();
    let served = serve(&mut director, &device, &mut counters, 1).unwrap();
    assert_eq!((served.taken, served.unsent), (1, 1));
    assert_eq!((director.count(0), counters.taken(Way::Inbound)), (Ok(1), 1));
}

/// Every refusal and change has a counter of its own.
#[test]
fn counters_have_names() {
    let (mut director, device, other_end) = scene();
    let mut counters = Counters::new();
    let mut reset = SYN;
    reset[33] = 0x04;
    for packet in [SYN, SYN, reset] {
        other_end.send(&packet).unwrap();
    }
    serve(&mut director, &device, &mut counters, 1).unwrap();
    let changes = [Change::Opened, Change::Kept, Change::Ended];
    assert_eq!(changes.map(|change| counters.accepted(Way::Inbound, change)), [1, 1, 1]);
    for refusal in Refusal::ALL {
        assert_eq!(counters.refused(Way::Inbound, refusal), 0);
        assert_eq!(counters.refused(Way::Outbound, refusal), 0);
    }
    other_end.send(&reset).unwrap();
    other_end.send(&turned(SYN)).unwrap();
    serve(&mut director, &device, &mut counters, 1).unwrap();
    assert_eq!(counters.refused(Way::Inbound, Refusal::NoConnection), 1);
    assert_eq!(counters.refused(Way::Outbound, Refusal::OtherEndpoint), 1);
    for mut packet in [SYN, turned(SYN), turned(SYN)] {
        packet[8] ^= 1;
        other_end.send(&packet).unwrap();
    }
    serve(&mut director, &device, &mut counters, 1).unwrap();
    assert_eq!(counters.refused(Way::Inbound, Refusal::BadChecksum), 1);
    assert_eq!(counters.refused(Way::Outbound, Refusal::BadChecksum), 2);
    assert_eq!((counters.taken(Way::Inbound), counters.taken(Way::Outbound)), (5, 3));
}
