//! The measure: a tick, then packets one after another, by the reference's single calls.

use crate::call::{Call, Told};
use crate::sides::{Reference, Side};
use crate::world::World;
use reference::State;

/// Which call a packet is handed to.
#[derive(Clone, Copy, Debug, PartialEq, Eq)]
pub enum Way {
    Inbound,
    Outbound,
}

/// By its destination: inbound where it is too short to have one, or has the virtual address.
pub fn way_of(state: &State, packet: &[u8]) -> Way {
    match packet.get(16..20) {
        Some(address) if *address != state.service.address.to_be_bytes() => Way::Outbound,
        _ => Way::Inbound,
    }
}

/// A packet that was taken.
#[derive(Clone, Debug, PartialEq, Eq)]
pub struct Step {
    pub way: Way,
    pub told: Told,
    pub came: Vec<u8>,
    pub left: Vec<u8>,
}

/// A tick, and the packets that were taken after it.
#[derive(Clone, Debug)]
pub struct Singly {
    pub tick: Told,
    pub clock: u32,
    pub world: World,
    pub steps: Vec<Step>,
}

impl Singly {
    /// The tick. Refused, it changes nothing.
    pub fn new(world: &World, clock: u32) -> Singly {
        let mut world = world.clone();
        let tick = Call::Tick { clock };
        let told = Reference.make(&tick, &mut world.state, &mut world.row, &mut []);
        Singly { tick: told, clock, world, steps: Vec::new() }
    }

    /// A packet more, unless the tick was refused.
    pub fn take(&mut self, came: Vec<u8>) {
        if self.tick.refusal != 0 {
            return;
        }
        let way = way_of(&self.world.state, &came);
        let (mut left, call) = (came.clone(), single_call(way, &came, self.clock));
        let World { state, row } = &mut self.world;
        let told = Reference.make(&call, state, row, &mut left);
        self.steps.push(Step { way, told, came, left });
    }
}

/// The call of a packet that goes this way.
pub fn single_call(way: Way, packet: &[u8], clock: u32) -> Call {
    let packet = packet.to_vec();
    match way {
        Way::Inbound => Call::Inbound { packet, clock },
        Way::Outbound => Call::Outbound { packet, clock },
    }
}
