//! Settings: those that are accepted, and those with one thing wrong.

use crate::call::{Call, Lending};
use crate::world::World;
use random::Rng;
use reference::{Server, Service, PLACES};

/// A setup that is accepted.
pub fn good(rng: &mut Rng, world: &World) -> Call {
    let (service, servers) = settings(rng);
    let words = slots(rng) * 5;
    let filled = rng.one_of(&[0, 1, 3, u32::MAX]);
    let row = match world.slots() > 0 && world.row.len().is_multiple_of(5) && rng.permille(300) {
        true => Lending::Present,
        false => Lending::Fresh { words, filled },
    };
    Call::SetUp { service, servers: Box::new(servers), row }
}

/// A setup with one thing spoiled, perhaps where it doesn't matter, or two.
pub fn odd(rng: &mut Rng, world: &World) -> Call {
    let mut call = good(rng, world);
    if let Call::SetUp { service, servers, row } = &mut call {
        for _ in 0..rng.one_of(&[1, 1, 1, 2]) {
            spoil(rng, service, servers, row);
        }
    }
    call
}

fn spoil(rng: &mut Rng, service: &mut Service, servers: &mut [Server; PLACES], row: &mut Lending) {
    let n = service.servers as usize;
    // among the servers in use, or just past them
    let (a, b) = (rng.below(n + 1).min(PLACES - 1), rng.below(n + 1).min(PLACES - 1));
    match rng.below(12) {
        0 => service.servers = rng.one_of(&[0, 65, 66, 256, 257, u32::MAX]),
        1 => {
            let words = rng.one_of(&[0, 1, 4, 6, 9, 11, 20_479, 20_481, 20_485]);
            *row = Lending::Fresh { words, filled: 3 };
        }
        2 => service.address = 0,
        3 => service.port = 0,
        4 => service.protocol = rng.one_of(&[0, 1, 5, 7, 16, 18, 255]),
        5 => service.scheduler = rng.one_of(&[0, 5, 6, 255]),
        6..=7 => servers[a].address = 0,
        8 => servers[a].port = 0,
        9 => servers[a].address = servers[b].address,
        _ => (servers[a].address, servers[a].port) = (servers[b].address, servers[b].port),
    }
}

/// Service and servers that setup accepts; what stands past the last server is anything.
pub fn settings(rng: &mut Rng) -> (Service, [Server; PLACES]) {
    let how_many = rng.one_of(&[1, 1, 2, 2, 2, 3, 3, 3, 4, 4, 5, 7, 9, 17, 33, 63, 64]);
    let (address, port) = match rng.below(12) {
        0 => (u32::MAX, u16::MAX),
        1 => rng.one_of(&[(1, 1), (0xFFFF_0000, 1), (0x0001_FFFF, u16::MAX)]),
        2 => (rng.number() as u32 | 1, rng.number() as u16 | 1),
        _ => (0xC000_020A, 5432),
    };
    let service = Service {
        address,
        port,
        protocol: rng.one_of(&[6, 6, 17]),
        scheduler: rng.one_of(&[1, 2, 2, 3, 4]),
        servers: how_many,
    };
    let mut servers = ends(rng, (address, port));
    let pattern = rng.below(8);
    for server in &mut servers {
        server.weight = patterned_weight(rng, pattern);
        server.count = rng.one_of(&[0, 0, 1, u32::MAX]);
    }
    (service, servers)
}

/// 64 different addresses and ports.
fn ends(rng: &mut Rng, service: (u32, u16)) -> [Server; PLACES] {
    let mut servers = [Server::default(); PLACES];
    let form = rng.below(6);
    for (number, server) in servers.iter_mut().enumerate() {
        (server.address, server.port) = match form {
            0 => (0x0A01_0005, 6_432 + number as u16),
            1 => (u32::MAX - number as u32, u16::MAX),
            // a lower word of 0
            2 => ((number as u32 + 1) << 16, 1),
            _ => (0x0A01_0005 + number as u32, 6432),
        };
    }
    if form == 3 && service == (0xC000_020A, 5432) {
        // a server behind the virtual address and port itself
        (servers[0].address, servers[0].port) = service;
    }
    servers
}

fn patterned_weight(rng: &mut Rng, pattern: usize) -> u16 {
    match pattern {
        0 => 0,
        1 => rng.one_of(&[0, 65_535]),
        2 => rng.one_of(&[6, 12, 18, 30]),
        3 => rng.one_of(&[65_533, 65_534, 65_535]),
        _ => weight(rng),
    }
}

pub fn weight(rng: &mut Rng) -> u16 {
    match rng.below(20) {
        0 => 65_535,
        1 => rng.number() as u16,
        _ => rng.one_of(&[0, 0, 1, 1, 2, 3, 4, 6]),
    }
}

/// How many slots: mostly few.
pub fn slots(rng: &mut Rng) -> usize {
    match rng.below(1_200) {
        0..=7 => 4_096,
        8 => rng.below(4_096) + 1,
        9..=60 => rng.below(100) + 1,
        _ => rng.one_of(&[1, 1, 2, 3, 5, 8, 13]),
    }
}
