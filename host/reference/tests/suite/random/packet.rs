//! Random packets, with a bias to those that belong and to edges.

use super::rng::Rng;
use crate::support::{server_end, Director, VIRTUAL};
use reference::checksum;
use reference::data::UDP;
use reference::packets::{self, End, Plan, Sum, ACK, FIN, RST, SYN};

/// Some used slot's words.
pub fn used_slot(rng: &mut Rng, director: &Director) -> Option<[u32; 5]> {
    let slots = director.row.len() / 5;
    let first = rng.below(slots);
    // far slots are tried in turn, but not all 4,096 of them
    (0..slots.min(40)).map(|step| director.slot((first + step) % slots)).find(|words| words[0] != 0)
}

pub fn inbound(rng: &mut Rng, director: &Director) -> Vec<u8> {
    let client = match used_slot(rng, director) {
        Some(words) if rng.permille(600) => (words[1], words[2] as u16),
        _ => some_client(rng, director),
    };
    let plan = shaped(rng, director, client, VIRTUAL);
    finished(rng, plan, true)
}

pub fn outbound(rng: &mut Rng, director: &Director) -> Vec<u8> {
    let mut server = rng.below(director.state.service.servers as usize);
    let mut client = some_client(rng, director);
    if let (Some(words), true) = (used_slot(rng, director), rng.permille(900)) {
        client = (words[1], words[2] as u16);
        if rng.permille(900) {
            server = words[3] as usize;
        }
    }
    let at = director.state.servers[server];
    let plan = shaped(rng, director, (at.address, at.port), client);
    finished(rng, plan, false)
}

fn some_client(rng: &mut Rng, director: &Director) -> End {
    let pool = director.row.len() / 5 * 2 + 4;
    match rng.below(30) {
        0 => (0, 0),
        1 => (u32::MAX, u16::MAX),
        2 => VIRTUAL,
        3 => server_end(0),
        _ => {
            let number = rng.below(pool) as u32;
            (0x0A00_0001 + number / 3, 40_000 + (number % 3) as u16)
        }
    }
}

/// A sound packet with random options, data, trailing bytes, flags and transport checksum.
fn shaped(rng: &mut Rng, director: &Director, source: End, destination: End) -> Plan {
    let udp = director.state.service.protocol == UDP;
    let mut plan = match udp {
        true => packets::udp(source, destination),
        false => packets::tcp(source, destination, flags(rng)),
    };
    if rng.permille(250) {
        let length = rng.below(41);
        plan.ip_options = rng.bytes(length);
    }
    if !udp && rng.permille(250) {
        let length = rng.below(41);
        plan.tcp_options = rng.bytes(length);
    }
    let data = rng.one_of(&[0, 0, 1, 2, 7, 30]);
    plan.data = rng.bytes(data);
    if rng.permille(250) {
        let length = rng.below(25) + 1;
        plan.trailing = rng.bytes(length);
    }
    plan.fragment = rng.one_of(&[0x0000, 0x4000, 0x8000, 0xC000]);
    plan.transport_sum = transport_sum(rng, director);
    plan
}

fn flags(rng: &mut Rng) -> u8 {
    match rng.below(20) {
        0..=6 => SYN,
        7..=11 => ACK,
        12..=15 => FIN | ACK,
        16 => rng.one_of(&[RST, RST | ACK, RST | FIN]),
        17 => rng.one_of(&[SYN | ACK, SYN | FIN, FIN, 0]),
        _ => rng.next() as u8,
    }
}

fn transport_sum(rng: &mut Rng, director: &Director) -> Sum {
    match rng.below(12) {
        0 => Sum::Given(0),
        1 => Sum::Given(0xFFFF),
        2 => Sum::Given(rng.next() as u16),
        3..=4 => {
            // comes to 0 or FFFF when rewritten towards or from this server
            let server = director.state.servers[rng.below(director.counts().len())];
            let end = (server.address, server.port);
            let wanted = rng.one_of(&[0, 0xFFFF]);
            match rng.permille(500) {
                true => Sum::Given(checksum::edit_endpoint(wanted, end, VIRTUAL)),
                false => Sum::Given(checksum::edit_endpoint(wanted, VIRTUAL, end)),
            }
        }
        _ => Sum::Right,
    }
}

/// The bytes, one in eight spoiled, and then perhaps their header checksum as well.
fn finished(rng: &mut Rng, plan: Plan, inbound: bool) -> Vec<u8> {
    let mut bytes = with_a_fault(rng, plan, inbound);
    if rng.permille(20) {
        packets::spoil_header(&mut bytes, rng.below(16));
    }
    bytes
}

/// The bytes, one in eight with a fault.
fn with_a_fault(rng: &mut Rng, mut plan: Plan, inbound: bool) -> Vec<u8> {
    match rng.below(120) {
        0 => plan.version = Some(rng.below(16) as u8),
        1 => plan.header_words = Some(rng.below(16) as u8),
        2 => plan.total_length = Some(rng.below(80) as u16),
        3 => plan.header_sum = Sum::Given(rng.next() as u16),
        4 => plan.fragment = rng.one_of(&[0x2000, 0x0001, 0x1000, 0x3FFF, 0xFFFF]),
        5 => plan.written_protocol = Some(rng.one_of(&[0, 1, 6, 17, 255])),
        6 => plan.data_offset = Some(rng.below(16) as u8),
        7 => plan.udp_length = Some(rng.below(40) as u16),
        8 if inbound => plan.destination.1 ^= 1,
        9 if inbound => plan.destination.0 ^= 1 << rng.below(32),
        8 => plan.source.1 ^= 1,
        9 => plan.source.0 ^= 1 << 31,
        10 => return cut(rng, plan.build()),
        11..=13 => return flipped(rng, plan.build()),
        14 => {
            let length = rng.below(70);
            return rng.bytes(length);
        }
        _ => {}
    }
    plan.build()
}

fn cut(rng: &mut Rng, mut bytes: Vec<u8>) -> Vec<u8> {
    bytes.truncate(rng.below(bytes.len() + 1));
    bytes
}

/// A bit turned over, the header checksum mended or not.
fn flipped(rng: &mut Rng, mut bytes: Vec<u8>) -> Vec<u8> {
    let at = rng.below(bytes.len());
    bytes[at] ^= 1 << rng.below(8);
    if rng.permille(700) {
        packets::mend_header(&mut bytes);
    }
    bytes
}
