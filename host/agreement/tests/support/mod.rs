//! A director on which the library and the reference are compared call by call.

use agreement::call::{Call, Lending, Told};
use agreement::compare::step;
use agreement::sides::Library;
use agreement::world::World;
use reference::{Server, Service, PLACES};

pub const OPENED: u32 = 1;
pub const KEPT: u32 = 2;

/// The library's director, and the reference's going along.
pub struct Both(pub World);

impl Both {
    /// Setup of these servers, over a row of its own of some words.
    pub fn set_up_servers(&mut self, service: Service, servers: &[Server], words: usize) -> Told {
        let mut all = Box::new([Server::default(); PLACES]);
        all[..servers.len()].copy_from_slice(servers);
        let row = Lending::Fresh { words, filled: 9 };
        self.make(Call::SetUp { service, servers: all, row }).0
    }

    /// The answer, and the packet as it leaves.
    pub fn make(&mut self, call: Call) -> (Told, Vec<u8>) {
        let stepped = step(&Library, &call, &self.0, None).unwrap();
        self.0 = stepped.world;
        (stepped.told, stepped.packet)
    }
}

pub fn told(number: u32, change: u32) -> Told {
    Told { refusal: 0, number, change }
}

pub fn refused(refusal: u32) -> Told {
    Told { refusal, number: 0, change: 0 }
}
