//! States and rows of arbitrary words.

use crate::world::World;
use random::Rng;
use reference::{weights, Server, Service, State, Walk};

/// Arbitrary words, some of them likely ones.
pub fn world(rng: &mut Rng) -> World {
    let mut state = State::new();
    state.service = Service {
        address: word(rng),
        port: word(rng) as u16,
        protocol: rng.one_of(&[6, 17, 0, 255]),
        scheduler: rng.below(6) as u8,
        servers: word(rng),
    };
    state.clock = word(rng);
    state.walk = Walk { place: rng.number() as i64 >> rng.below(64), level: word(rng) as u16 };
    for server in &mut state.servers {
        *server = Server {
            address: word(rng),
            port: word(rng) as u16,
            weight: word(rng) as u16,
            count: word(rng),
        };
    }
    (state.largest_weight, state.weight_divisor) = (word(rng) as u16, word(rng) as u16);
    sometimes_make_true(rng, &mut state);
    let words = rng.one_of(&[0, 1, 5, 10, 15, 40, 41]);
    World { state, row: (0..words).map(|_| word(rng)).collect() }
}

/// A sound world with a few words changed, rules or not.
pub fn stir(rng: &mut Rng, world: &mut World) {
    for _ in 0..rng.below(3) + 1 {
        let value = word(rng);
        let place = rng.below(66).min(63);
        let state = &mut world.state;
        match rng.below(14) {
            0 => state.service.servers = value,
            1 => state.service.scheduler = value as u8,
            2 => state.service.protocol = rng.one_of(&[0, 6, 17]),
            3 => state.servers[place].address = value,
            4 => state.servers[place].port = value as u16,
            5 => {
                state.servers[place].weight = value as u16;
                sometimes_make_true(rng, state);
            }
            6 => state.servers[place].count = value,
            7 => state.walk.place = i64::from(value) - 2,
            8 => state.walk.level = value as u16,
            9 => state.clock = value,
            10 => state.largest_weight = value as u16,
            11 => state.weight_divisor = value as u16,
            _ if !world.row.is_empty() => {
                let at = rng.below(world.row.len());
                world.row[at] = value;
            }
            _ => {}
        }
    }
}

/// Else a state with other weights would never be sound.
fn sometimes_make_true(rng: &mut Rng, state: &mut State) {
    if rng.permille(500) {
        weights::make_true(state);
    }
}

fn word(rng: &mut Rng) -> u32 {
    let any = rng.number() as u32;
    rng.one_of(&[0, 0, 0, 1, 1, 2, 3, 4, 5, 63, 64, 65_535, 65_536, u32::MAX, any])
}
