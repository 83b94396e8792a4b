//! The packets that a serve has taken, as its trace has them.

use crate::serves::{next, scene};
use crate::support::{syn_from, turned, SYN};
use nidhaaguf::{Change, Counters, Director, End, Passed, Refusal, Served, Trace, Way};
use std::io::ErrorKind;
use std::os::unix::net::UnixDatagram;

const OPENED: Result<Passed, Refusal> = Ok(Passed { server: 0, change: Change::Opened });
const KEPT: Result<Passed, Refusal> = Ok(Passed { server: 0, change: Change::Kept });
const FULL: Result<Passed, Refusal> = Err(Refusal::TableFull);

/// Up to ten packets at clock 1.
fn serve(
    director: &mut Director,
    device: &UnixDatagram,
    trace: &mut Trace,
    stop: Option<Refusal>,
) -> Served {
    director.serve(device, trace, &mut Counters::new(), 1, 10, stop).unwrap()
}

fn send(other_end: &UnixDatagram, packets: &[&[u8]]) {
    for packet in packets {
        other_end.send(packet).unwrap();
    }
}

fn answers(trace: &Trace) -> Vec<Result<Passed, Refusal>> {
    trace.packets().map(|packet| packet.answer).collect()
}

fn has_nothing_to_read(served: &Served) -> bool {
    matches!(&served.end, End::Failed(error) if error.kind() == ErrorKind::WouldBlock)
}

/// A client's SYN of so many bytes.
fn syn_of(length: usize) -> Vec<u8> {
    let mut packet = SYN.to_vec();
    packet.resize(length, 7);
    packet[2..4].copy_from_slice(&(length as u16).to_be_bytes());
    packet[10..12].fill(0);
    let words = packet[..20].chunks(2).map(|word| u32::from(word[0]) << 8 | u32::from(word[1]));
    let sum: u32 = words.sum();
    let checksum = !((sum >> 16) + (sum & 0xFFFF)) as u16;
    packet[10..12].copy_from_slice(&checksum.to_be_bytes());
    packet
}

#[test]
fn each_packet_has_its_way_its_bytes_and_its_answer() {
    let (mut director, device, other_end) = scene();
    let (mut there, mut single) = (SYN, director.clone());
    single.inbound(&mut there, 1).unwrap();
    let mut back = turned(there);
    let (refused, nobodys) = (syn_from(40_001), turned(SYN));
    // bytes behind its total length are the packet's, too
    let long = [&SYN[..], &[1, 2, 3]].concat();
    send(&other_end, &[&SYN, &refused, &SYN[..19], &back, &nobodys, &long]);
    single.outbound(&mut back, 1).unwrap();

    let mut trace = Trace::new(10);
    assert_eq!(serve(&mut director, &device, &mut trace, None).taken, 6);
    let packets: Vec<_> = trace.packets().collect();
    let bytes: Vec<&[u8]> = packets.iter().map(|packet| packet.bytes).collect();
    let long = [&there[..], &[1, 2, 3]].concat();
    assert_eq!(bytes, [&there[..], &refused, &SYN[..19], &back, &nobodys, &long]);
    let ways: Vec<Way> = packets.iter().map(|packet| packet.way).collect();
    let (inbound, outbound) = (Way::Inbound, Way::Outbound);
    assert_eq!(ways, [inbound, inbound, inbound, outbound, outbound, inbound]);
    let (cut, other) = (Err(Refusal::MalformedHeader), Err(Refusal::OtherEndpoint));
    assert_eq!(answers(&trace), [OPENED, FULL, cut, KEPT, other, KEPT]);
    assert_eq!(trace.last(), packets.last().copied());
    // the accepted ones are those that were written
    let accepted = packets.iter().filter(|packet| packet.answer.is_ok());
    let accepted: Vec<_> = accepted.map(|packet| packet.bytes.to_vec()).collect();
    assert_eq!(std::iter::from_fn(|| next(&other_end)).collect::<Vec<_>>(), accepted);
}

#[test]
fn a_refusal_ends_it_behind_its_packet() {
    let (mut director, device, other_end) = scene();
    let mut trace = Trace::new(10);
    let stop = Some(Refusal::TableFull);
    send(&other_end, &[&SYN, &SYN[..19], &syn_from(40_001), &SYN, &syn_from(40_002)]);
    let first = serve(&mut director, &device, &mut trace, stop);
    assert!(matches!(first.end, End::Most), "{first:?}");
    assert_eq!(answers(&trace), [OPENED, Err(Refusal::MalformedHeader), FULL]);
    assert_eq!(trace.last().unwrap().bytes, syn_from(40_001));
    // the others are still there
    let second = serve(&mut director, &device, &mut trace, stop);
    assert!(matches!(second.end, End::Most), "{second:?}");
    assert_eq!(answers(&trace), [KEPT, FULL]);
    assert!(has_nothing_to_read(&serve(&mut director, &device, &mut trace, stop)));
}

#[test]
fn another_refusal_does_not_end_it() {
    let (mut director, device, other_end) = scene();
    let mut trace = Trace::new(10);
    for stop in [None, Some(Refusal::NoConnection), Some(Refusal::Unsound)] {
        send(&other_end, &[&SYN, &syn_from(40_001), &SYN]);
        let served = serve(&mut director, &device, &mut trace, stop);
        assert_eq!(served.taken, 3);
        assert!(has_nothing_to_read(&served), "{served:?}");
        assert_eq!(answers(&trace)[1..], [FULL, KEPT]);
    }
}

#[test]
fn a_full_trace_ends_it() {
    let (mut director, device, other_end) = scene();
    send(&other_end, &[&SYN[..]; 5]);
    let mut none = Trace::new(0);
    let served = serve(&mut director, &device, &mut none, None);
    assert!(served.taken == 0 && matches!(served.end, End::Most), "{served:?}");
    let mut two = Trace::new(2);
    for taken in [2, 2] {
        let served = serve(&mut director, &device, &mut two, None);
        assert!(served.taken == taken && matches!(served.end, End::Most), "{served:?}");
        assert_eq!(two.packets().count(), 2);
    }
    let served = serve(&mut director, &device, &mut two, None);
    assert!(served.taken == 1 && has_nothing_to_read(&served), "{served:?}");
}

#[test]
fn a_trace_that_is_lent_again_begins_anew() {
    let (mut director, device, other_end) = scene();
    let mut trace = Trace::new(10);
    assert_eq!((trace.packets().count(), trace.last()), (0, None));
    send(&other_end, &[&SYN, &syn_from(40_001), &SYN]);
    serve(&mut director, &device, &mut trace, None);
    assert_eq!(answers(&trace), [OPENED, FULL, KEPT]);
    send(&other_end, &[&SYN[..19]]);
    serve(&mut director, &device, &mut trace, None);
    assert_eq!(answers(&trace), [Err(Refusal::MalformedHeader)]);
    assert_eq!(trace.last().unwrap().bytes, &SYN[..19]);
    // with nothing to read, and with a clock that is refused
    serve(&mut director, &device, &mut trace, None);
    assert_eq!(trace.last(), None);
    send(&other_end, &[&SYN]);
    serve(&mut director, &device, &mut trace, None);
    let refused = director.serve(&device, &mut trace, &mut Counters::new(), 0, 10, None);
    assert_eq!(refused.unwrap_err(), Refusal::EarlierClock);
    assert_eq!(trace.last(), None);
}

/// The longest there is, also behind others, and so many of the usual length as it was made for.
#[test]
fn any_packet_finds_room() {
    let (mut director, device, other_end) = scene();
    let longest = syn_of(65_535);
    for before in 0..=3 {
        let mut trace = Trace::new(4);
        let mut packets = vec![&SYN[..]; before];
        packets.extend([&longest[..], &SYN]);
        send(&other_end, &packets);
        let served = serve(&mut director, &device, &mut trace, None);
        // behind it there is no room for another
        assert!(matches!(served.end, End::Most), "{served:?}");
        assert_eq!((served.taken as usize, trace.packets().count()), (before + 1, before + 1));
        let last = trace.last().unwrap();
        assert_eq!((last.bytes.len(), last.answer.is_ok()), (65_535, true));
        assert_eq!(&last.bytes[40..], &longest[40..]);
        assert_eq!(serve(&mut director, &device, &mut trace, None).taken, 1);
        assert_eq!(std::iter::from_fn(|| next(&other_end)).count(), before + 2);
    }
    let mut trace = Trace::new(4);
    send(&other_end, &[&syn_of(2_048)[..]; 4]);
    assert_eq!(serve(&mut director, &device, &mut trace, None).taken, 4);
    assert_eq!(answers(&trace), [KEPT; 4]);
}
