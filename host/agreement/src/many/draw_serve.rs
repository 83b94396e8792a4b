//! What a serve is lent and given, drawn so that each of the things that end it is now and then scarce.

use super::call::{Packet, Serve};
use super::draw::of_total;
use super::ends::LONGEST;
use super::other_end::{OtherEnd, FEW};
use super::singly::Singly;
use crate::world::World;
use nidhaaguf::raw::WORDS_PER_TRACED;
use random::Rng;

/// First counters. The last four make one more wrap: of an outbound 20, an outbound ending, an inbound 20, an opening.
const COUNTED: [u64; 7] = [0, 7, 1 << 32, u64::MAX - 45, u64::MAX - 25, u64::MAX - 22, u64::MAX];

/// Of a thousand serves so many have too small a `most`, so many too few records, so many too little room, and so many a
/// stop that some packet may get. Six of ten have none of these and take all their packets: long calls stay common.
const SCARCE: usize = 110;

/// Buffers that take one packet, cut or whole.
const SHORT: [usize; 11] = [0, 1, 19, 20, 27, 28, 40, 44, 60, 2_048, 65_535];

/// Numbers that no packet of a serve is refused with, two of them with the low bytes of 12.
const NO_STOPS: [u32; 12] = [0, 0, 0, 0, 1, 5, 11, 15, 16, 256 + 12, 65_536 + 12, u32::MAX];

/// A serve of packets that were drawn along these single calls.
pub(super) fn serve(rng: &mut Rng, singly: &Singly, packets: &mut [Packet]) -> Serve {
    let size = packets.len();
    if size > 0 && rng.permille(100) {
        // a read that gives nothing, before others that would
        packets[rng.below(size)] = Packet::new(Vec::new());
    }
    if size > 0 && rng.permille(30) {
        packets[rng.below(size)] = Packet::new(longest(rng, &singly.world));
    }
    let (buffer, words) = (buffer(rng, packets), words(rng, size));
    let (most, stop) = (most(rng, size as u32), stop(rng, singly));
    let counted = rng.one_of(&COUNTED);
    let other_end = match size <= FEW {
        true => rng.one_of(&[OtherEnd::Ending, OtherEnd::Silent, OtherEnd::Unreceiving]),
        false => OtherEnd::Ending,
    };
    Serve { buffer, words, most, stop, counted, other_end }
}

/// As long as a packet may be, and often with bytes behind it, so that it is longer than any packet.
fn longest(rng: &mut Rng, world: &World) -> Vec<u8> {
    let mut packet = of_total(rng, world, 65_535);
    packet.resize(rng.one_of(&[65_535, 65_536, 65_537, 70_000]), 3);
    packet
}

/// Often room for all of them; or it ends, by a byte or not, behind one of them; or there is less than a packet may need.
fn buffer(rng: &mut Rng, packets: &[Packet]) -> usize {
    let length_of =
        |packets: &[Packet]| packets.iter().map(|packet| packet.bytes.len()).sum::<usize>();
    if !rng.permille(SCARCE) {
        return length_of(packets) + LONGEST + rng.one_of(&[0, 0, 1, 4_096]);
    }
    let first = packets.first().map_or(0, |packet| packet.bytes.len());
    let some = length_of(&packets[..rng.below(packets.len() + 1)]);
    match rng.below(10) {
        0..=2 => rng.one_of(&SHORT),
        3 => first.saturating_sub(rng.one_of(&[0, 0, 1])),
        _ => some + LONGEST - rng.one_of(&[0, 1, 1]),
    }
}

/// Words of records: for all, for fewer, and often with a part of a record behind them.
fn words(rng: &mut Rng, size: usize) -> usize {
    let of = |records: usize| records * WORDS_PER_TRACED;
    match rng.permille(SCARCE) {
        true => rng.one_of(&[0, 4, 5, of(size / 2), of(size / 2) + 4, of(size).saturating_sub(1)]),
        false => rng.one_of(&[of(size), of(size) + 1, of(size) + 4, of(size + 3)]),
    }
}

fn most(rng: &mut Rng, size: u32) -> u32 {
    match rng.permille(SCARCE) {
        true => rng.one_of(&[0, 1, size / 2, size.saturating_sub(1)]),
        false => rng.one_of(&[size, size + 1, u32::MAX, u32::MAX]),
    }
}

/// Rarely one that some packet may get: in a long call the first such packet comes early.
fn stop(rng: &mut Rng, singly: &Singly) -> u32 {
    if !rng.permille(SCARCE) {
        return rng.one_of(&NO_STOPS);
    }
    let refusals = singly.steps.iter().map(|step| step.told.refusal);
    let refusals: Vec<u32> = refusals.filter(|&refusal| refusal != 0).collect();
    match rng.below(6) {
        0 => 20,
        1 | 2 => 12,
        _ if refusals.is_empty() => 12,
        _ => rng.one_of(&refusals),
    }
}
