//! Which call comes next, with a bias to edges.

use super::packet;
use super::rng::Rng;
use crate::support::{server_end, service, Director, VIRTUAL};
use reference::book::Call;
use reference::connection::idle_limit;
use reference::*;

/// A call with its arguments, before it is made.
#[derive(Debug)]
pub enum Deed {
    SetUp { service: Service, servers: Box<[Server; PLACES]>, words: usize },
    SetWeight { number: u32, weight: u16 },
    Count { number: u32 },
    Tick { clock: u32 },
    Inbound { packet: Vec<u8>, clock: u32 },
    Outbound { packet: Vec<u8>, clock: u32 },
}

impl Deed {
    pub fn packet(&self) -> &[u8] {
        match self {
            Deed::Inbound { packet, .. } | Deed::Outbound { packet, .. } => packet,
            _ => &[],
        }
    }

    /// The book's form of the call.
    pub fn call(&self) -> Call<'_> {
        match *self {
            Deed::SetUp { service, ref servers, .. } => Call::SetUp { service, servers },
            Deed::SetWeight { number, weight } => Call::SetWeight { number, weight },
            Deed::Count { number } => Call::Count { number },
            Deed::Tick { clock } => Call::Tick { clock },
            Deed::Inbound { ref packet, clock } => Call::Inbound { packet, clock },
            Deed::Outbound { ref packet, clock } => Call::Outbound { packet, clock },
        }
    }

    /// Makes the call. A setup lends a new row, which stays only if it is accepted.
    pub fn make(&self, director: &mut Director, packet: &mut [u8]) -> Answer {
        match *self {
            Deed::SetUp { service, ref servers, words } => {
                let mut row = vec![3; words];
                let answer = set_up(&mut director.state, service, **servers, &mut row);
                match answer {
                    Answer::Done => director.row = row,
                    _ => assert!(row.iter().all(|&word| word == 3)),
                }
                answer
            }
            Deed::SetWeight { number, weight } => director.weight(number, weight),
            Deed::Count { number } => director.count(number),
            Deed::Tick { clock } => director.tick(clock),
            Deed::Inbound { clock, .. } => director.inbound(packet, clock),
            Deed::Outbound { clock, .. } => director.outbound(packet, clock),
        }
    }
}

pub fn deed(rng: &mut Rng, director: &Director) -> Deed {
    match rng.below(1_000) {
        0..=1 => good_setup(rng),
        2..=6 => odd_setup(rng),
        7..=36 => Deed::SetWeight { number: server_number(rng, director), weight: weight(rng) },
        37..=56 => Deed::Count { number: server_number(rng, director) },
        57..=106 => Deed::Tick { clock: clock(rng, director) },
        107..=650 => {
            Deed::Inbound { packet: packet::inbound(rng, director), clock: clock(rng, director) }
        }
        _ => {
            Deed::Outbound { packet: packet::outbound(rng, director), clock: clock(rng, director) }
        }
    }
}

/// A setup that is accepted.
pub fn good_setup(rng: &mut Rng) -> Deed {
    let how_many = rng.one_of(&[1, 1, 2, 2, 3, 3, 4, 5, 9, 64]);
    let slots = match rng.below(120) {
        0 => 4_096,
        1..=10 => rng.below(200) + 1,
        _ => rng.one_of(&[1, 2, 3, 5, 8, 13]),
    };
    let mut servers = [Server::default(); PLACES];
    for (number, server) in servers.iter_mut().enumerate() {
        let (address, port) = server_end(number);
        *server = Server { address, port, weight: weight(rng), count: rng.below(3) as u32 };
    }
    if rng.permille(50) {
        // a server behind the virtual address and port itself
        (servers[0].address, servers[0].port) = VIRTUAL;
    }
    let protocol = rng.one_of(&[6, 6, 17]);
    let scheduler = rng.below(4) as u8 + 1;
    Deed::SetUp {
        service: service(protocol, scheduler, how_many),
        servers: Box::new(servers),
        words: slots * 5,
    }
}

/// A setup with one thing spoiled, perhaps where it doesn't matter.
fn odd_setup(rng: &mut Rng) -> Deed {
    let mut deed = good_setup(rng);
    if let Deed::SetUp { service, servers, words } = &mut deed {
        let (a, b) = (rng.below(6), rng.below(6));
        match rng.below(11) {
            0 => service.servers = rng.one_of(&[0, 65, u32::MAX]),
            1 => *words = rng.one_of(&[0, 1, 4, 6, 20_481, 20_485]),
            2 => service.address = 0,
            3 => service.port = 0,
            4 => service.protocol = rng.one_of(&[0, 1, 7, 255]),
            5 => service.scheduler = rng.one_of(&[0, 5, 255]),
            6 => servers[a].address = 0,
            7 => servers[a].port = 0,
            _ => servers[a / 3] = servers[b / 3 + 1],
        }
    }
    deed
}

fn weight(rng: &mut Rng) -> u16 {
    match rng.below(20) {
        0 => 65_535,
        1 => rng.next() as u16,
        _ => rng.one_of(&[0, 0, 1, 1, 2, 3, 4, 6]),
    }
}

fn server_number(rng: &mut Rng, director: &Director) -> u32 {
    let n = director.state.service.servers;
    match rng.below(12) {
        0 => rng.one_of(&[n, 64, u32::MAX]),
        _ => rng.below(n as usize) as u32,
    }
}

/// A clock: mostly now or soon, sometimes an idle limit's edge, earlier, or far ahead.
pub fn clock(rng: &mut Rng, director: &Director) -> u32 {
    let now = director.state.clock;
    match rng.below(1_000) {
        0 => u32::MAX - rng.below(2_000) as u32,
        1..=40 => now.saturating_sub(rng.one_of(&[1, 1, 2, 300])),
        41..=160 => edge(rng, director).unwrap_or(now),
        161..=400 => now.saturating_add(rng.below(40) as u32),
        401..=430 => now.saturating_add(rng.below(1_000) as u32),
        _ => now,
    }
}

/// The second at which a used slot grows idle, or one beside it.
fn edge(rng: &mut Rng, director: &Director) -> Option<u32> {
    let [phase, _, _, _, last_seen] = packet::used_slot(rng, director)?;
    let limit = idle_limit(director.state.service.protocol, phase);
    let edge = last_seen.checked_add(limit)?;
    let beside = [edge - 1, edge, edge.saturating_add(1)];
    Some(rng.one_of(&beside))
}
