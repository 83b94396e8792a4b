//! Seeded packets, most of them damaged.

use crate::model::{SERVERS, VIRTUAL};
use random::Rng;
use reference::packets::{self, mend_header, Plan, ACK, FIN, RST, SYN};

/// Damaged in one of eight ways; the last may leave it good.
pub fn damaged(random: &mut Rng) -> Vec<u8> {
    let mut plan = plan(random);
    match random.below(8) {
        0 => {
            let length = 1 + random.below(1_400);
            return random.bytes(length);
        }
        1 => return truncated(random, plan.build()),
        2 => plan.header_sum = packets::Sum::Given(random.number() as u16),
        3 => plan.fragment = 1 + random.below(0x3FFF) as u16,
        4 => plan.written_protocol = Some(random.number() as u8),
        5 => plan.data_offset = Some(random.below(16) as u8),
        6 => plan.total_length = Some(random.below(100) as u16),
        _ => return struck(random, plan.build()),
    }
    plan.build()
}

/// A good packet of one of a few clients, to the service or from a server.
fn plan(random: &mut Rng) -> Plan {
    let client = (0x0A00_0001, 50_000 + random.below(40) as u16);
    let flags = [SYN, SYN | ACK, ACK, FIN | ACK, RST][random.below(5)];
    let mut plan = match random.below(3) {
        2 => packets::tcp(SERVERS[random.below(2)], client, flags),
        _ => packets::tcp(client, VIRTUAL, flags),
    };
    let length = random.below(60);
    plan.data = random.bytes(length);
    plan
}

fn truncated(random: &mut Rng, mut packet: Vec<u8>) -> Vec<u8> {
    packet.truncate(1 + random.below(packet.len() - 1));
    packet
}

/// Up to four bytes changed at random, half the time under a header checksum that is right again.
fn struck(random: &mut Rng, mut packet: Vec<u8>) -> Vec<u8> {
    for _ in 0..random.below(5) {
        let place = random.below(packet.len());
        packet[place] = random.number() as u8;
    }
    if random.below(2) == 0 {
        mend_header(&mut packet);
    }
    packet
}
