//! Which call comes next, with a bias to edges.

pub mod clock;
pub mod damage;
pub mod packet;
pub mod setup;
pub mod sums;

use crate::call::Call;
use crate::world::World;
use random::Rng;
use reference::data::UDP;
use reference::{packets, PLACES};

/// How often each call is chosen.
#[derive(Clone, Copy, Debug, PartialEq, Eq)]
pub enum Mix {
    /// Mostly packets, as in a long list.
    Traffic,
    /// All six alike.
    Even,
}

/// A call for a world whose servers number 1 to 64 and whose row has a slot.
pub fn call(rng: &mut Rng, world: &World, mix: Mix) -> Call {
    let kind = match mix {
        Mix::Traffic => rng.below(1_000),
        Mix::Even => rng.one_of(&[0, 5, 10, 50, 100, 500, 900]),
    };
    // with no connection a server has little to say
    let kind = match kind > 600 && packet::used_slot(rng, world).is_none() && rng.permille(800) {
        true => 500,
        false => kind,
    };
    match kind {
        0..=1 => setup::good(rng, world),
        2..=8 => setup::odd(rng, world),
        9..=38 => Call::SetWeight { number: server_number(rng, world), weight: setup::weight(rng) },
        39..=58 => Call::Count { number: server_number(rng, world) },
        59..=108 => Call::Tick { clock: clock::clock(rng, world) },
        109..=600 => {
            Call::Inbound { packet: packet::inbound(rng, world), clock: clock::clock(rng, world) }
        }
        _ => {
            Call::Outbound { packet: packet::outbound(rng, world), clock: clock::clock(rng, world) }
        }
    }
}

/// A right packet from a client that is hardly known, at the present clock: it would open a connection.
pub fn opening(rng: &mut Rng, world: &World) -> Call {
    let service = &world.state.service;
    let client = (rng.number() as u32, rng.number() as u16);
    let to = (service.address, service.port);
    let plan = match service.protocol {
        UDP => packets::udp(client, to),
        _ => packets::tcp(client, to, packets::SYN),
    };
    Call::Inbound { packet: plan.build(), clock: world.state.clock }
}

fn server_number(rng: &mut Rng, world: &World) -> u32 {
    let n = world.state.service.servers;
    match rng.below(8) {
        0 => rng.one_of(&[n, n + 1, PLACES as u32 - 1, PLACES as u32, 256, 65_536, u32::MAX]),
        _ => rng.below(n as usize) as u32,
    }
}
