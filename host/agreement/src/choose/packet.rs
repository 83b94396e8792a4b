//! Packets, with a bias to those that belong and to edges.

use super::{damage, sums};
use crate::world::World;
use random::Rng;
use reference::connection::BOTH_FINISHED;
use reference::data::UDP;
use reference::packets::{self, End, Plan, ACK, FIN, RST, SYN};
use reference::table::Slot;

/// Some used slot.
pub fn used_slot(rng: &mut Rng, world: &World) -> Option<Slot> {
    let slots = world.slots();
    let first = rng.below(slots);
    // far slots are tried in turn, but not all 4,096 of them
    let mut tried = (0..slots.min(40)).map(|step| world.slot((first + step) % slots));
    tried.find(Slot::is_used)
}

pub fn inbound(rng: &mut Rng, world: &World) -> Vec<u8> {
    let service = &world.state.service;
    let slot = used_slot(rng, world).filter(|_| rng.permille(600));
    let client = match slot {
        Some(slot) => (slot.address, slot.port as u16),
        None => some_client(rng, world),
    };
    let flags = match slot {
        // the port comes back early
        Some(slot) if slot.phase == BOTH_FINISHED && rng.permille(700) => {
            rng.one_of(&[SYN, SYN, SYN, SYN, SYN, SYN, SYN | ACK, SYN | FIN])
        }
        _ => flags(rng),
    };
    let plan = shaped(rng, world, client, (service.address, service.port), flags);
    finished(rng, plan, world, true)
}

pub fn outbound(rng: &mut Rng, world: &World) -> Vec<u8> {
    let mut server = rng.below(world.state.used_servers().len());
    let mut client = some_client(rng, world);
    if let (Some(slot), true) = (used_slot(rng, world), rng.permille(900)) {
        client = (slot.address, slot.port as u16);
        if rng.permille(900) {
            server = slot.server as usize;
        }
    }
    let from = world.state.servers[server];
    let flags = flags(rng);
    let plan = shaped(rng, world, (from.address, from.port), client, flags);
    finished(rng, plan, world, false)
}

/// Few clients, so that they meet again; odd ones among them.
pub fn some_client(rng: &mut Rng, world: &World) -> End {
    let state = &world.state;
    match rng.below(30) {
        0 => (0, 0),
        1 => (u32::MAX, u16::MAX),
        2 => (state.service.address, state.service.port),
        3 => (state.servers[0].address, state.servers[0].port),
        _ => {
            let number = rng.below(world.slots() * 2 + 4) as u32;
            (0x0A00_0001 + number / 3, 40_000 + (number % 3) as u16)
        }
    }
}

fn finished(rng: &mut Rng, plan: Plan, world: &World, inbound: bool) -> Vec<u8> {
    let mut bytes = match rng.permille(150) {
        true => damage::damaged(rng, plan, inbound),
        false => sums::aimed(rng, plan, world, inbound),
    };
    // a long packet now and then, also longer than any total length
    if rng.permille(1) {
        let length = rng.one_of(&[1_500, 9_000, 65_535, 65_600]);
        bytes.resize(bytes.len().max(length), 0x5A);
    }
    bytes
}

/// A right packet with random options, data and trailing bytes; the flags are for TCP.
fn shaped(rng: &mut Rng, world: &World, source: End, destination: End, flags: u8) -> Plan {
    let udp = world.state.service.protocol == UDP;
    let mut plan = match udp {
        true => packets::udp(source, destination),
        false => packets::tcp(source, destination, flags),
    };
    if rng.permille(250) {
        let length = rng.below(41);
        plan.ip_options = rng.bytes(length);
    }
    if !udp && rng.permille(250) {
        let length = rng.below(41);
        plan.tcp_options = rng.bytes(length);
    }
    let data = match rng.below(2_000) {
        0 => rng.one_of(&[1_480, 65_400]),
        _ => rng.one_of(&[0, 0, 1, 2, 7, 30]),
    };
    plan.data = rng.bytes(data);
    if rng.permille(250) {
        let length = rng.below(25) + 1;
        plan.trailing = rng.bytes(length);
    }
    plan.fragment = rng.one_of(&[0x0000, 0x4000, 0x8000, 0xC000]);
    plan
}

fn flags(rng: &mut Rng) -> u8 {
    match rng.below(20) {
        0..=6 => SYN,
        7..=11 => ACK,
        12..=15 => FIN | ACK,
        16 => rng.one_of(&[RST, RST | ACK, RST | FIN, RST | SYN]),
        17 => rng.one_of(&[SYN | ACK, SYN | FIN, FIN, 0, SYN | 0xE8]),
        _ => rng.number() as u8,
    }
}
