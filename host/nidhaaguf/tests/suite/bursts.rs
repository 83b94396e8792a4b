//! Packets that are handed in together.

use crate::support::{settings, syn_from, turned, SYN};
use nidhaaguf::raw::{Record, PLACE};
use nidhaaguf::{Burst, Change, Director, Passed, Refusal};

const OPENED: Result<Passed, Refusal> = Ok(Passed { server: 0, change: Change::Opened });
const KEPT: Result<Passed, Refusal> = Ok(Passed { server: 0, change: Change::Kept });

#[test]
fn a_burst_is_its_packets_one_by_one() {
    let mut single = Director::set_up(&settings(1), 1).unwrap();
    let mut director = single.clone();
    let (mut there, mut other) = (SYN, syn_from(40_001));
    assert_eq!(single.inbound(&mut there, 7), OPENED);
    let mut back = turned(there);
    let came_back = back;
    assert_eq!(single.outbound(&mut back, 7), KEPT);
    assert_eq!(single.inbound(&mut other, 7), Err(Refusal::TableFull));

    let mut burst = Burst::new(3);
    for packet in [SYN, came_back, syn_from(40_001)] {
        burst.push(&packet).unwrap();
    }
    let answered = director.burst(&mut burst, 7).unwrap();
    let packets: Vec<_> = answered.packets().collect();
    let wanted = [(&there[..], OPENED), (&back, KEPT), (&other, Err(Refusal::TableFull))];
    assert_eq!((packets, answered.removed), (wanted.to_vec(), 0));
    assert_eq!(director, single);
}

#[test]
fn a_tick_comes_first_and_may_be_refused() {
    let mut director = Director::set_up(&settings(1), 1).unwrap();
    director.inbound(&mut SYN.clone(), 7).unwrap();
    let mut burst = Burst::new(1);
    burst.push(&syn_from(40_001)).unwrap();
    assert_eq!(director.burst(&mut burst, 6).unwrap_err(), Refusal::EarlierClock);
    assert_eq!((burst.len(), director.clock()), (1, 7));
    let answered = director.burst(&mut burst, 907).unwrap();
    assert_eq!(answered.removed, 1);
    assert_eq!(answered.packets().next().map(|(_, answer)| answer), Some(OPENED));
    assert!(burst.is_empty());
    assert_eq!(director.burst(&mut burst, 908).unwrap().packets().len(), 0);
}

#[test]
fn places_are_taken_and_freed() {
    let mut burst = Burst::new(2);
    assert!(burst.push(&[0; Burst::LONGEST + 1]).is_err());
    assert!(burst.is_empty());
    burst.push(&[0; Burst::LONGEST]).unwrap();
    assert_eq!(burst.read(|_| Err("nothing there")), Some(Err("nothing there")));
    assert_eq!(burst.len(), 1);
    assert_eq!(burst.read(|place| Ok::<_, ()>(place.len())), Some(Ok(PLACE)));
    assert_eq!(burst.read(|_| -> Result<usize, ()> { panic!("no place to read into") }), None);
    assert!(burst.push(&[]).is_err());
    burst.clear();
    assert_eq!(burst.len(), 0);
    burst.push(&[]).unwrap();
}

/// A reader that tells more than there is room for gets the whole place, no more.
#[test]
fn a_length_past_the_place() {
    let mut director = Director::set_up(&settings(1), 1).unwrap();
    let mut burst = Burst::new(1);
    for length in [PLACE + 1, u32::MAX as usize, 1 << 32, usize::MAX] {
        burst.read(|_| Ok::<_, ()>(length));
        let answered = director.burst(&mut burst, 0).unwrap();
        let (packet, answer) = answered.packets().next().unwrap();
        assert_eq!((packet.len(), answer), (PLACE, Err(Refusal::MalformedHeader)));
    }
}

#[test]
fn a_ring_of_ones_own() {
    let mut director = Director::set_up(&settings(1), 4).unwrap();
    // the packets stand 14 bytes into each frame, behind an Ethernet header
    let mut ring = vec![0; 3 * PLACE];
    let mut records = [Record::of_length(40); 2];
    for (frame, packet) in ring.chunks_mut(PLACE).zip([SYN, syn_from(40_001)]) {
        frame[14..54].copy_from_slice(&packet);
    }
    assert_eq!(director.burst_in_place(&mut ring[14..], &mut records, 0), Ok(0));
    assert_eq!(records.map(|record| record.answer()), [OPENED; 2]);
    assert_eq!(records.map(|record| record.length), [40; 2]);
    for frame in ring.chunks(PLACE).take(2) {
        assert_eq!(frame[14 + 16..14 + 20], [10, 1, 0, 5]);
    }
}
