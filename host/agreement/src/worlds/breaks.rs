//! Breaking one rule of a sound state and row at a time.

use super::sound;
use crate::counted::Counted;
use crate::world::World;
use random::Rng;
use reference::data::UDP;
use reference::table::FREE;
use reference::{State, PLACES};

/// One way to break a rule. It is tried on a sound world, and tells whether there was something to break.
pub struct Break {
    pub rule: &'static str,
    pub apply: fn(&mut Rng, &mut World) -> bool,
}

const fn rule(rule: &'static str, apply: fn(&mut Rng, &mut World) -> bool) -> Break {
    Break { rule, apply }
}

/// All of them; each leaves a state that is not sound.
pub const BREAKS: [Break; 33] = [
    rule("1: servers not 1..64", |rng, world| {
        put(&mut world.state.service.servers, rng.one_of(&[0, 65, 256, u32::MAX]))
    }),
    rule("1: row not a multiple of five", |rng, world| {
        let words = world.row.len() + rng.below(4) + 1;
        world.row.resize(words, 0);
        true
    }),
    rule("1: row too short", |rng, world| {
        world.row.truncate(rng.below(5));
        true
    }),
    rule("1: row too long", |rng, world| {
        world.row.resize(20_480 + 5 * (rng.below(2) + 1), 0);
        true
    }),
    rule("2: virtual address 0", |_, world| put(&mut world.state.service.address, 0)),
    rule("2: virtual port 0", |_, world| put(&mut world.state.service.port, 0)),
    rule("2: protocol", |rng, world| {
        put(&mut world.state.service.protocol, rng.one_of(&[0, 5, 7, 16, 18, 255]))
    }),
    rule("2: scheduler", |rng, world| {
        put(&mut world.state.service.scheduler, rng.one_of(&[0, 5, 255]))
    }),
    rule("3: server address 0", |rng, world| {
        let server = some_server(rng, world);
        put(&mut world.state.servers[server].address, 0)
    }),
    rule("3: server port 0", |rng, world| {
        let server = some_server(rng, world);
        put(&mut world.state.servers[server].port, 0)
    }),
    rule("4: two servers equal", |rng, world| {
        let (one, other) = (some_server(rng, world), some_server(rng, world));
        let from = world.state.servers[other];
        let to = &mut world.state.servers[one];
        (to.address, to.port) = (from.address, from.port);
        one != other
    }),
    rule("unused server place not zeros", unused_place),
    rule("free slot not zeros", |rng, world| {
        let Some(slot) = some_slot(rng, world, false) else { return false };
        let at = slot * 5 + 1 + rng.below(4);
        put(&mut world.row[at], rng.one_of(&[1, 1 << 16, u32::MAX]))
    }),
    rule("phase past 4 (UDP: 1)", |rng, world| {
        let udp = world.state.service.protocol == UDP;
        let low = if udp { 2 } else { 5 };
        word(rng, world, 0, |rng, phase| {
            rng.one_of(&[low, 5, phase + 256, phase + 65_536, u32::MAX])
        })
    }),
    rule("phase 0 in a used slot", |rng, world| word(rng, world, 0, |_, _| 0)),
    rule("port past 65,535", |rng, world| {
        word(rng, world, 2, |rng, port| rng.one_of(&[65_536, port + 65_536, u32::MAX]))
    }),
    rule("no such server", |rng, world| {
        let n = world.state.service.servers;
        word(rng, world, 3, |rng, server| {
            rng.one_of(&[n, 64, server + 64, server + 256, server + 65_536, u32::MAX])
        })
    }),
    rule("last-seen after the clock", |rng, world| {
        let Some(later) = world.state.clock.checked_add(1) else { return false };
        word(rng, world, 4, |rng, _| rng.one_of(&[later, u32::MAX]))
    }),
    rule("clock before last-seen", clock_before),
    rule("one count wrong", |rng, world| {
        let server = some_server(rng, world);
        let count = world.state.servers[server].count;
        let wrong = [count + 1, count.wrapping_sub(1), count + 4_096, count + 65_536, u32::MAX];
        put(&mut world.state.servers[server].count, rng.one_of(&wrong))
    }),
    rule("two counts wrong, their sum right", |rng, world| {
        let (one, other) = (some_server(rng, world), some_server(rng, world));
        let servers = &mut world.state.servers;
        if one == other || servers[one].count == 0 {
            return false;
        }
        servers[one].count -= 1;
        servers[other].count += 1;
        true
    }),
    rule("slot gone, count not", |rng, world| {
        let Some(slot) = some_slot(rng, world, true) else { return false };
        world.put(slot, FREE);
        true
    }),
    rule("slot of another server", |rng, world| {
        let n = world.state.service.servers;
        word(rng, world, 3, |rng, _| rng.below(n as usize) as u32)
    }),
    rule("walk's place", wrong_place),
    rule("walk's level", wrong_level),
    rule("largest weight, scheduler 1", wrong_largest::<1>),
    rule("largest weight, scheduler 2", wrong_largest::<2>),
    rule("largest weight, scheduler 3", wrong_largest::<3>),
    rule("largest weight, scheduler 4", wrong_largest::<4>),
    rule("divisor, scheduler 1", wrong_divisor::<1>),
    rule("divisor, scheduler 2", wrong_divisor::<2>),
    rule("divisor, scheduler 3", wrong_divisor::<3>),
    rule("divisor, scheduler 4", wrong_divisor::<4>),
];

/// The broken rules, none met.
pub fn rules() -> Counted {
    Counted::new(BREAKS.iter().map(|broken| broken.rule))
}

/// A sound world, the rule that is broken (each is as likely), and the world with it broken.
pub fn world(rng: &mut Rng) -> (World, usize, World) {
    let rule = rng.below(BREAKS.len());
    loop {
        let sound = sound::world(rng);
        let mut broken = sound.clone();
        if (BREAKS[rule].apply)(rng, &mut broken) {
            return (sound, rule, broken);
        }
    }
}

/// Puts a value; tells whether it differs from the one before.
fn put<T: PartialEq>(place: &mut T, value: T) -> bool {
    let differs = *place != value;
    *place = value;
    differs
}

fn some_server(rng: &mut Rng, world: &World) -> usize {
    rng.below(world.state.service.servers as usize)
}

/// A used or a free slot's number.
fn some_slot(rng: &mut Rng, world: &World, used: bool) -> Option<usize> {
    let slots = world.slots();
    let first = rng.below(slots);
    let mut numbers = (0..slots).map(|step| (first + step) % slots);
    numbers.find(|&number| world.slot(number).is_used() == used)
}

/// Changes one word of a used slot.
fn word(
    rng: &mut Rng,
    world: &mut World,
    which: usize,
    wrong: impl Fn(&mut Rng, u32) -> u32,
) -> bool {
    let Some(slot) = some_slot(rng, world, true) else { return false };
    let at = slot * 5 + which;
    let value = wrong(rng, world.row[at]);
    put(&mut world.row[at], value)
}

fn unused_place(rng: &mut Rng, world: &mut World) -> bool {
    let n = world.state.service.servers as usize;
    if n == PLACES {
        return false;
    }
    let any = n + rng.below(PLACES - n);
    let place = rng.one_of(&[n, any, PLACES - 1]);
    let server = &mut world.state.servers[place];
    match rng.below(4) {
        0 => server.address = rng.one_of(&[1, u32::MAX]),
        1 => server.port = rng.one_of(&[1, u16::MAX]),
        2 => server.weight = rng.one_of(&[1, u16::MAX]),
        _ => server.count = rng.one_of(&[1, u32::MAX]),
    }
    true
}

fn clock_before(rng: &mut Rng, world: &mut World) -> bool {
    let Some(slot) = some_slot(rng, world, true) else { return false };
    match world.slot(slot).last_seen.checked_sub(1) {
        Some(earlier) => put(&mut world.state.clock, earlier),
        None => false,
    }
}

/// A place out of range, also one that is in range when cut to fewer bits.
fn wrong_place(rng: &mut Rng, world: &mut World) -> bool {
    let n = i64::from(world.state.service.servers);
    let place = world.state.walk.place;
    let wrong = [-2, n, n + 1, 64, place + 256, place + (1 << 32), i64::MAX, i64::MIN];
    let mut value = rng.one_of(&wrong);
    match world.state.service.scheduler {
        1 => value = rng.one_of(&[-1, value]),
        2 => {}
        _ => value = rng.one_of(&[-1, 1, value]),
    }
    put(&mut world.state.walk.place, value)
}

fn wrong_level(rng: &mut Rng, world: &mut World) -> bool {
    let largest = world.state.largest_weight;
    let walk = &mut world.state.walk;
    match (world.state.service.scheduler, largest.checked_add(1)) {
        (2, _) if walk.place != -1 && rng.permille(500) => put(&mut walk.level, 0),
        (2, Some(past)) => put(&mut walk.level, rng.one_of(&[past, u16::MAX])),
        (2, None) => false,
        _ => put(&mut walk.level, rng.one_of(&[1, 256, u16::MAX])),
    }
}

fn wrong_largest<const SCHEDULER: u8>(rng: &mut Rng, world: &mut World) -> bool {
    wrong_number(rng, world, SCHEDULER, |state| &mut state.largest_weight)
}

fn wrong_divisor<const SCHEDULER: u8>(rng: &mut Rng, world: &mut World) -> bool {
    wrong_number(rng, world, SCHEDULER, |state| &mut state.weight_divisor)
}

/// One of the two that are held of the weights: what the other is, some weight, or a number beside the right one.
fn wrong_number(
    rng: &mut Rng,
    world: &mut World,
    scheduler: u8,
    number: fn(&mut State) -> &mut u16,
) -> bool {
    let some_weight = world.state.servers[some_server(rng, world)].weight;
    let State { largest_weight: largest, weight_divisor: divisor, .. } = world.state;
    let held = number(&mut world.state);
    let beside = [held.wrapping_add(1), held.wrapping_sub(1), *held ^ 256, *held / 2];
    let other = [0, 1, largest, divisor, some_weight, u16::MAX];
    let wrong = if rng.permille(500) { rng.one_of(&beside) } else { rng.one_of(&other) };
    world.state.service.scheduler == scheduler && put(number(&mut world.state), wrong)
}
