//! Sound states and rows: any slots, two for one client among them, any walk in its range.

use crate::choose::{packet, setup};
use crate::world::World;
use random::Rng;
use reference::data::{ROUND_ROBIN, UDP, WEIGHTED_ROUND_ROBIN};
use reference::table::Slot;
use reference::{weights, Server, State, Walk, PLACES};

/// A sound world.
pub fn world(rng: &mut Rng) -> World {
    let (service, given) = setup::settings(rng);
    let mut servers = [Server::default(); PLACES];
    for (place, server) in servers.iter_mut().zip(given).take(service.servers as usize) {
        *place = Server { count: 0, ..server };
    }
    let state = State { service, servers, clock: clock(rng), ..State::new() };
    let mut world = World { state, row: vec![0; setup::slots(rng) * 5] };
    weights::make_true(&mut world.state);
    world.state.walk = walk(rng, &world);
    fill(rng, &mut world);
    debug_assert!(world.is_sound(), "{world:?}");
    world
}

fn clock(rng: &mut Rng) -> u32 {
    match rng.below(12) {
        0 => 0,
        1 => u32::MAX - rng.one_of(&[0, 1, 119, 120, 121, 300, 900, 2_000]),
        2 => rng.number() as u32,
        3 => rng.one_of(&[119, 120, 121, 299, 300, 301, 899, 900, 901]),
        _ => 1_000 + rng.below(5_000) as u32,
    }
}

fn fill(rng: &mut Rng, world: &mut World) {
    let share = match world.slots() {
        4_096 => rng.one_of(&[1_000, 1_000, 1_000, 500]),
        _ => rng.one_of(&[0, 300, 700, 950, 1_000]),
    };
    // a table stays full only while none of its slots is idle
    let fresh = rng.permille(600);
    // with few servers in use the others stand at count 0
    let favoured = rng.below(world.state.service.servers as usize) + 1;
    for number in 0..world.slots() {
        if rng.permille(share) {
            let mut slot = used_slot(rng, world, favoured);
            if fresh {
                slot.last_seen = world.state.clock.saturating_sub(rng.below(20) as u32);
            }
            world.put(number, slot);
            world.state.servers[slot.server as usize].count += 1;
        }
    }
}

fn used_slot(rng: &mut Rng, world: &World, favoured: usize) -> Slot {
    let (address, port) = match packet::used_slot(rng, world) {
        // a client's second slot
        Some(slot) if rng.permille(200) => (slot.address, slot.port as u16),
        _ => packet::some_client(rng, world),
    };
    let phase = match world.state.service.protocol {
        UDP => 1,
        _ => rng.one_of(&[1, 1, 2, 3, 4, 4]),
    };
    let server = rng.below(favoured) as u32;
    let last_seen = last_seen(rng, world.state.clock);
    Slot { phase, address, port: u32::from(port), server, last_seen }
}

/// Not after the clock; often about to grow idle, or idle already.
fn last_seen(rng: &mut Rng, clock: u32) -> u32 {
    let ago = match rng.below(8) {
        0 => rng.one_of(&[119, 120, 121, 299, 300, 301, 899, 900, 901]),
        1 => rng.number() as u32,
        _ => rng.below(120) as u32,
    };
    clock.saturating_sub(ago)
}

/// Any walk in the scheduler's range.
fn walk(rng: &mut Rng, world: &World) -> Walk {
    let servers = world.state.used_servers();
    let n = servers.len();
    match world.state.service.scheduler {
        ROUND_ROBIN => Walk { place: rng.below(n) as i64, level: 0 },
        WEIGHTED_ROUND_ROBIN => {
            let State { largest_weight: largest, weight_divisor: divisor, .. } = world.state;
            let middle = servers[rng.below(n)].weight;
            let any = rng.below(usize::from(largest) + 1) as u16;
            let level = rng.one_of(&[0, 1.min(largest), divisor, middle, any, largest]);
            // "cw 0 only with i = -1"; at -1 cw may be anything
            let place = if level == 0 { -1 } else { rng.below(n + 1) as i64 - 1 };
            Walk { place, level }
        }
        _ => Walk { place: 0, level: 0 },
    }
}
