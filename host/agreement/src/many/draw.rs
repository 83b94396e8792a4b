//! Bursts and serves, drawn along the reference with a bias to edges.

use super::call::{Burst, Form, Many, Packet};
use super::draw_serve::serve;
use super::singly::Singly;
use crate::case::{rng, Kind};
use crate::choose::clock::clock;
use crate::choose::packet::{inbound, outbound, some_client, used_slot};
use crate::world::World;
use crate::worlds::{breaks, junk, sound};
use random::Rng;
use reference::data::UDP;
use reference::packets;

/// How many packets a burst or serve has.
pub const SIZES: [usize; 6] = [0, 1, 2, 7, 64, 300];

/// Lengths that a burst's record may tell, whatever the packet.
const LENGTHS: [u32; 11] =
    [0, 19, 20, 2_047, 2_048, 2_048, 2_049, 65_535, 65_536, 1 << 31, u32::MAX];

/// A case that is being drawn.
pub struct Case {
    pub kind: Kind,
    pub first: World,
    rng: Rng,
    /// Those that are already drawn, the last one first.
    ready: Vec<Many>,
    /// How many are still to be drawn for the world as it then is.
    to_draw: usize,
}

impl Case {
    /// The case of this number.
    pub fn new(seed: u64, number: u64) -> Case {
        let mut rng = rng(seed, number);
        match rng.below(1_000) {
            0..=299 => Case::broken(rng),
            300..=349 => Case::junk(rng),
            _ => {
                let (first, to_draw) = (sound::world(&mut rng), rng.one_of(&[1, 1, 2, 4]));
                Case { kind: Kind::Sound, first, rng, ready: Vec::new(), to_draw }
            }
        }
    }

    /// What was drawn for a sound world is made on one that is sound no more; refused, it leaves that as it was.
    fn broken(mut rng: Rng) -> Case {
        let (sound, rule, first) = breaks::world(&mut rng);
        let ready = (0..3).map(|_| many(&mut rng, &sound)).collect();
        Case { kind: Kind::Broken(rule), first, rng, ready, to_draw: 0 }
    }

    fn junk(mut rng: Rng) -> Case {
        let mut first = sound::world(&mut rng);
        let ready = vec![many(&mut rng, &first)];
        junk::stir(&mut rng, &mut first);
        Case { kind: Kind::Junk, first, rng, ready, to_draw: 0 }
    }

    /// The next one, for the world as it is now.
    pub fn next(&mut self, world: &World) -> Option<Many> {
        if !self.ready.is_empty() || self.to_draw == 0 {
            return self.ready.pop();
        }
        self.to_draw -= 1;
        Some(many(&mut self.rng, world))
    }
}

/// A burst or serve for a sound world.
fn many(rng: &mut Rng, world: &World) -> Many {
    let clock = clock(rng, world);
    let size = rng.one_of(&SIZES);
    let mut singly = Singly::new(world, clock);
    let bytes: Vec<Vec<u8>> = (0..size).map(|_| drawn_along(rng, &mut singly)).collect();
    let mut packets: Vec<Packet> = bytes.into_iter().map(Packet::new).collect();
    let form = match rng.permille(500) {
        true => Form::Burst(burst(rng, &mut packets)),
        false => Form::Serve(serve(rng, &singly, &mut packets)),
    };
    Many { clock, packets, form }
}

/// A packet for the world after those before it.
fn drawn_along(rng: &mut Rng, singly: &mut Singly) -> Vec<u8> {
    let world = &singly.world;
    // with no connection a server has little to say
    let is_quiet = used_slot(rng, world).is_none() && rng.permille(800);
    let packet = match (rng.permille(10), is_quiet || rng.permille(550)) {
        (true, _) => place_filling(rng, world),
        (_, true) => inbound(rng, world),
        (_, false) => outbound(rng, world),
    };
    singly.take(packet.clone());
    packet
}

/// A right packet of a client that just fills a place of a burst, or almost, or is too long for it.
fn place_filling(rng: &mut Rng, world: &World) -> Vec<u8> {
    let total = rng.one_of(&[2_047, 2_048, 2_048, 2_049]);
    of_total(rng, world, total)
}

/// A right packet of a client, of so many bytes.
pub(super) fn of_total(rng: &mut Rng, world: &World, total: usize) -> Vec<u8> {
    let service = &world.state.service;
    let to = (service.address, service.port);
    let client = some_client(rng, world);
    let mut plan = match service.protocol {
        UDP => packets::udp(client, to),
        _ => packets::tcp(client, to, packets::SYN),
    };
    plan.data = rng.bytes(total - plan.build().len());
    plan.build()
}

fn burst(rng: &mut Rng, packets: &mut [Packet]) -> Burst {
    for packet in packets.iter_mut() {
        if rng.permille(60) {
            packet.length = rng.one_of(&LENGTHS);
        }
    }
    let none = Burst::default();
    match rng.below(12) {
        0 => Burst { places: rng.below(3) + 1, ..none },
        1 => Burst { records: rng.below(3) + 1, ..none },
        2 => Burst { bytes: rng.one_of(&[1, 20, 2_047]), ..none },
        3 => Burst { words: rng.one_of(&[1, 2, 3]), ..none },
        // a whole record with a part of a place, and a whole place with a part of a record
        4 => Burst { bytes: 2_047, records: 1, ..none },
        5 => Burst { places: 1, words: 3, ..none },
        _ => none,
    }
}
