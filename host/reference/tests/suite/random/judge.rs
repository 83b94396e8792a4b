//! What a call may change, judged beside the book: state, row and packet before and after.

use super::choose::Deed;
use crate::support::{largest_and_divisor, Director};
use reference::data::UDP;
use reference::packets;
use reference::*;

/// Judges one call's effects; those of packets in a sound state. `left` is the packet as it left.
pub fn effects(before: &Director, after: &Director, deed: &Deed, answer: Answer, left: &[u8]) {
    if let Deed::Inbound { packet, .. } | Deed::Outbound { packet, .. } = deed {
        let told = [6, 20].into_iter().find(|&number| answer == Answer::Refused(number));
        assert_eq!(told, header_refusal(packet));
    }
    let held = match answer {
        // a setup or a weight
        Answer::Done => largest_and_divisor(&after.state),
        _ => before.held(),
    };
    assert_eq!(after.held(), held);
    match (answer, deed) {
        (Answer::Refused(number), Deed::Inbound { clock, .. } | Deed::Outbound { clock, .. })
            if refusal::keeps_clock(number) =>
        {
            assert_eq!(left, deed.packet());
            let ticked = ticked(before, *clock);
            assert_eq!(after, &ticked);
            full_or_weightless(&ticked, deed.packet(), answer);
        }
        (Answer::Refused(_), _) => {
            assert_eq!(left, deed.packet());
            assert_eq!(after, before);
        }
        (Answer::Passed(server, change), Deed::Inbound { packet, clock }) => {
            let end = after.state.servers[server as usize];
            rewritten(packet, left, 16, 2, (end.address, end.port));
            moved(&ticked(before, *clock), after, server, change);
        }
        (Answer::Passed(server, change), Deed::Outbound { packet, clock }) => {
            let service = after.state.service;
            rewritten(packet, left, 12, 0, (service.address, service.port));
            assert_ne!(change, Change::Opened);
            moved(&ticked(before, *clock), after, server, change);
        }
        (Answer::Number(removed), Deed::Tick { clock }) => {
            assert_eq!(after.state.clock, *clock);
            assert_eq!(after.state.walk, before.state.walk);
            assert_eq!(total(before) - total(after), removed);
        }
        (Answer::Number(_), _) => assert_eq!(after, before),
        (Answer::Done, Deed::SetWeight { number, weight }) => {
            weighed(before, after, *number as usize, *weight)
        }
        (Answer::Done, _) => assert_eq!((total(after), after.state.clock), (0, 0)),
        other => panic!("{other:?}"),
    }
}

/// 6 and 20 once more, as literally as they are written.
fn header_refusal(packet: &[u8]) -> Option<u8> {
    if packet.len() < 20 {
        return Some(6);
    }
    let (version, words) = (packet[0] / 16, usize::from(packet[0] % 16));
    let total = usize::from(packet[2]) * 256 + usize::from(packet[3]);
    if version != 4 || words < 5 || total < words * 4 || total > packet.len() {
        return Some(6);
    }
    (!packets::header_verifies(packet)).then_some(20)
}

fn total(director: &Director) -> u32 {
    director.counts().iter().sum()
}

/// What the clock alone does.
fn ticked(before: &Director, clock: u32) -> Director {
    let mut ticked = before.clone();
    assert!(matches!(ticked.tick(clock), Answer::Number(_)));
    ticked
}

fn full_or_weightless(ticked: &Director, packet: &[u8], answer: Answer) {
    let full = ticked.row.chunks(5).all(|slot| slot[0] != 0);
    let weightless = ticked.state.used_servers().iter().all(|server| server.weight == 0);
    let port_at = usize::from(packet[0] & 15) * 4;
    let (address, port) = (&packet[12..16], &packet[port_at..port_at + 2]);
    let number = |bytes: &[u8]| bytes.iter().fold(0, |sum, &b| sum << 8 | u32::from(b));
    let present = slot_of(ticked, number(address), number(port)).map(|slot| ticked.slot(slot)[0]);
    match answer {
        Answer::Refused(13) => assert!(full && present.is_none()),
        Answer::Refused(14) => {
            assert!(weightless);
            // of a full table only the client's own finished connection gives a slot
            assert!(present == Some(4) || present.is_none() && !full);
        }
        _ => {}
    }
}

/// The lowest slot of a client.
fn slot_of(director: &Director, address: u32, port: u32) -> Option<usize> {
    let mut slots = director.row.chunks(5);
    slots.position(|slot| slot[0] != 0 && slot[1..3] == [address, port])
}

/// Only one address, one port and two checksums may differ, and they must be right.
fn rewritten(came: &[u8], left: &[u8], address_at: usize, port_at: usize, end: (u32, u16)) {
    let header = usize::from(came[0] & 15) * 4;
    let udp = came[9] == UDP;
    let sum_at = header + if udp { 6 } else { 16 };
    let port_at = header + port_at;
    let mut want = came.to_vec();
    want[address_at..address_at + 4].copy_from_slice(&end.0.to_be_bytes());
    want[port_at..port_at + 2].copy_from_slice(&end.1.to_be_bytes());
    want[10..12].copy_from_slice(&left[10..12]);
    want[sum_at..sum_at + 2].copy_from_slice(&left[sum_at..sum_at + 2]);
    assert_eq!(left, want);
    assert!(packets::header_verifies(left));
    let no_sum = udp && came[sum_at..sum_at + 2] == [0, 0];
    if udp {
        assert_eq!(left[sum_at..sum_at + 2] == [0, 0], no_sum);
    }
    if !no_sum {
        assert_eq!(packets::transport_verifies(left), packets::transport_verifies(came));
    }
}

/// From the ticked director to the one after: exactly one slot differs, as the change says; where a
/// finished connection was opened anew, perhaps its old slot too.
fn moved(ticked: &Director, after: &Director, server: u32, change: Change) {
    let mut want = ticked.clone();
    let slots = ticked.row.len() / 5;
    let touched = (0..slots).find(|&slot| ticked.slot(slot) != after.slot(slot));
    match (change, touched) {
        (Change::Opened, Some(slot)) => {
            let words = after.slot(slot);
            assert_eq!((words[0], words[3], words[4]), (1, server, ticked.state.clock));
            open(&mut want, slot, words);
        }
        (Change::Ended, Some(slot)) => {
            assert_eq!(ticked.slot(slot)[3], server);
            end(&mut want, slot);
        }
        (Change::Kept, Some(slot)) => {
            assert_eq!(ticked.slot(slot)[3], server);
            want.row[slot * 5] = after.row[slot * 5];
            want.row[slot * 5 + 4] = ticked.state.clock;
        }
        (Change::Kept, None) => {}
        other => panic!("{other:?}"),
    }
    assert_eq!(after, &want);
}

fn end(director: &mut Director, slot: usize) {
    director.state.servers[director.slot(slot)[3] as usize].count -= 1;
    director.row[slot * 5..slot * 5 + 5].fill(0);
}

/// An opening into this slot, its client's finished connection ended before.
fn open(director: &mut Director, slot: usize, words: [u32; 5]) {
    if let Some(old) = slot_of(director, words[1], words[2]) {
        assert_eq!(director.slot(old)[0], 4);
        end(director, old);
    }
    assert_eq!(director.row.chunks(5).position(|slot| slot[0] == 0), Some(slot));
    assert!(director.state.weights().any(|weight| weight > 0), "14 is due");
    let (picked, walk) = pick(&director.state);
    assert_eq!(picked, words[3] as usize);
    director.place(slot, words);
    director.state.walk = walk;
}

fn weighed(before: &Director, after: &Director, number: usize, weight: u16) {
    let mut want = before.clone();
    want.state.servers[number].weight = weight;
    (want.state.largest_weight, want.state.weight_divisor) = after.held();
    let changed = before.state.servers[number].weight != weight;
    if changed && before.state.service.scheduler == 2 {
        want.state.walk = Walk { place: -1, level: 0 };
    }
    assert_eq!(after, &want);
}

/// "Who is picked" once more, as literally as it is written.
pub fn pick(state: &State) -> (usize, Walk) {
    let servers = state.used_servers();
    match state.service.scheduler {
        1 => {
            let mut i = state.walk.place as usize;
            loop {
                i = (i + 1) % servers.len();
                if servers[i].weight > 0 {
                    return (i, Walk { place: i as i64, level: 0 });
                }
            }
        }
        2 => weighted_walk(state),
        3 => (lowest(servers, |s| (u64::from(s.count), 1)), state.walk),
        _ => (lowest(servers, |s| (u64::from(s.count), u64::from(s.weight))), state.walk),
    }
}

/// With both numbers worked out anew.
fn weighted_walk(state: &State) -> (usize, Walk) {
    let weights: Vec<i64> = state.weights().map(i64::from).collect();
    let (largest, divisor) = largest_and_divisor(state);
    let (mut i, mut cw) = (state.walk.place, i64::from(state.walk.level));
    loop {
        i = (i + 1) % weights.len() as i64;
        if i == 0 {
            cw -= i64::from(divisor);
            if cw <= 0 {
                cw = i64::from(largest);
            }
        }
        if weights[i as usize] >= cw {
            return (i as usize, Walk { place: i, level: cw as u16 });
        }
    }
}

/// The lowest number that no other server with a weight beats.
fn lowest(servers: &[Server], share: impl Fn(&Server) -> (u64, u64)) -> usize {
    let beats = |a: &Server, b: &Server| {
        let ((count_a, part_a), (count_b, part_b)) = (share(a), share(b));
        count_a * part_b < count_b * part_a
    };
    let weighty = |server: &&Server| server.weight > 0;
    (0..servers.len())
        .find(|&n| {
            servers[n].weight > 0 && !servers.iter().filter(weighty).any(|s| beats(s, &servers[n]))
        })
        .unwrap()
}
