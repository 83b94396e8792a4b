//! Packets with something wrong: a field, a bit, their length, or everything.

use random::Rng;
use reference::packets::{self, Plan, Sum};

/// The bytes of a packet, damaged; often the header checksum is wrong beside the other fault.
pub fn damaged(rng: &mut Rng, plan: Plan, inbound: bool) -> Vec<u8> {
    let mut bytes = with_a_fault(rng, plan, inbound);
    if rng.permille(250) {
        packets::spoil_header(&mut bytes, rng.below(16));
    }
    bytes
}

fn with_a_fault(rng: &mut Rng, mut plan: Plan, inbound: bool) -> Vec<u8> {
    match rng.below(16) {
        0 => plan.version = Some(rng.below(16) as u8),
        1 => plan.header_words = Some(rng.below(16) as u8),
        2 => plan.total_length = Some(wrong_total(rng, &plan)),
        3 => plan.header_sum = Sum::Given(rng.one_of(&[0, 0xFFFF, 0x1234])),
        4..=5 => plan.fragment = rng.one_of(&[0x2000, 0x0001, 0x1000, 0x3FFF, 0x6000, 0xFFFF]),
        6 => plan.written_protocol = Some(rng.one_of(&[0, 1, 5, 6, 7, 16, 17, 18, 255])),
        7 => other_protocol(&mut plan),
        8 => wrong_transport(rng, &mut plan),
        9..=10 => wrong_end(rng, &mut plan, inbound),
        11 => return cut(rng, plan.build()),
        12..=13 => return flipped(rng, plan.build()),
        14 => return shortened(rng, plan.build()),
        _ => {
            let length = rng.below(70);
            return rng.bytes(length);
        }
    }
    plan.build()
}

/// Below the header, at it, at the bytes given, or one past them.
fn wrong_total(rng: &mut Rng, plan: &Plan) -> u16 {
    let given = plan.build().len() as u16;
    let header = 20 + plan.ip_options.len().div_ceil(4) as u16 * 4;
    let any = rng.below(80) as u16;
    rng.one_of(&[
        0,
        19,
        20,
        header - 1,
        header,
        header + 8,
        header + 19,
        given,
        given.wrapping_add(1),
        any,
    ])
}

/// A right packet of the other protocol.
fn other_protocol(plan: &mut Plan) {
    plan.protocol = if plan.protocol == 6 { 17 } else { 6 };
}

/// Data offsets and UDP lengths at their edges.
fn wrong_transport(rng: &mut Rng, plan: &mut Plan) {
    let words = (20 + plan.tcp_options.len().div_ceil(4) * 4 + plan.data.len()) / 4;
    let offset = rng.one_of(&[0, 4, 5, 15, words.min(15), (words + 1).min(15)]);
    plan.data_offset = Some(offset as u8);
    let right = 8 + plan.data.len() as u16;
    plan.udp_length = Some(rng.one_of(&[0, 7, 8, right - 1, right + 1, u16::MAX]));
}

/// Not to the service, or not from a server: one bit of address or port.
fn wrong_end(rng: &mut Rng, plan: &mut Plan, inbound: bool) {
    let end = if inbound { &mut plan.destination } else { &mut plan.source };
    match rng.permille(500) {
        true => end.0 ^= 1 << rng.below(32),
        false => end.1 ^= 1 << rng.below(16),
    }
}

fn cut(rng: &mut Rng, mut bytes: Vec<u8>) -> Vec<u8> {
    bytes.truncate(rng.below(bytes.len() + 1));
    bytes
}

/// Cut, and its total length and header checksum mended: a payload too short.
fn shortened(rng: &mut Rng, mut bytes: Vec<u8>) -> Vec<u8> {
    let header = usize::from(bytes[0] & 15) * 4;
    let payload = rng.one_of(&[0, 1, 4, 7, 8, 12, 13, 19, 20]);
    bytes.truncate(header + payload);
    let total = bytes.len() as u16;
    bytes[2..4].copy_from_slice(&total.to_be_bytes());
    packets::mend_header(&mut bytes);
    bytes
}

/// A bit turned over, the header checksum mended or not.
fn flipped(rng: &mut Rng, mut bytes: Vec<u8>) -> Vec<u8> {
    let at = rng.below(bytes.len().min(64));
    bytes[at] ^= 1 << rng.below(8);
    if rng.permille(700) {
        packets::mend_header(&mut bytes);
    }
    bytes
}
