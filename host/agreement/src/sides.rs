//! The two implementations behind one form.

use crate::call::{Call, Told};
use nidhaaguf::raw;
use reference::{Server, Service, State, Walk, PLACES};

/// Makes a call: on return state, row and packet are as the call left them.
pub trait Side {
    fn make(&self, call: &Call, state: &mut State, row: &mut [u32], packet: &mut [u8]) -> Told;
}

/// libnidhaaguf.a.
pub struct Library;

/// The second implementation.
pub struct Reference;

impl Side for Reference {
    fn make(&self, call: &Call, state: &mut State, row: &mut [u32], packet: &mut [u8]) -> Told {
        Told::of(match *call {
            Call::SetUp { service, ref servers, .. } => {
                reference::set_up(state, service, **servers, row)
            }
            Call::SetWeight { number, weight } => reference::set_weight(state, row, number, weight),
            Call::Count { number } => reference::count(state, row, number),
            Call::Tick { clock } => reference::tick(state, row, clock),
            Call::Inbound { clock, .. } => reference::inbound(state, row, packet, clock),
            Call::Outbound { clock, .. } => reference::outbound(state, row, packet, clock),
        })
    }
}

impl Side for Library {
    fn make(&self, call: &Call, state: &mut State, row: &mut [u32], packet: &mut [u8]) -> Told {
        let handed = to_library(state);
        let answer = match *call {
            Call::SetUp { service, ref servers, .. } => {
                let servers = raw::Servers { server: servers.map(server_to_library) };
                raw::set_up(handed, service_to_library(service), servers, row)
            }
            Call::SetWeight { number, weight } => raw::set_weight(handed, row, number, weight),
            Call::Count { number } => raw::count(handed, row, number),
            Call::Tick { clock } => raw::tick(handed, row, clock),
            Call::Inbound { clock, .. } => raw::inbound(handed, row, packet, clock),
            Call::Outbound { clock, .. } => raw::outbound(handed, row, packet, clock),
        };
        *state = from_library(&answer.state);
        Told { refusal: answer.refusal, number: answer.number, change: answer.change }
    }
}

/// Place -1 is 0 there, place k is k + 1; taken round, so that any place has its other form.
pub fn to_library(state: &State) -> raw::State {
    raw::State {
        service: service_to_library(state.service),
        clock: state.clock,
        servers: state.servers.map(server_to_library),
        place: (state.walk.place as u64).wrapping_add(1),
        level: state.walk.level,
        largest_weight: state.largest_weight,
        weight_divisor: state.weight_divisor,
    }
}

pub fn from_library(state: &raw::State) -> State {
    let raw::Service { address, port, protocol, scheduler, servers } = state.service;
    let mut back = [Server::default(); PLACES];
    for (place, given) in back.iter_mut().zip(state.servers) {
        let raw::Server { address, port, weight, count } = given;
        *place = Server { address, port, weight, count };
    }
    State {
        service: Service { address, port, protocol, scheduler, servers },
        servers: back,
        walk: Walk { place: state.place.wrapping_sub(1) as i64, level: state.level },
        clock: state.clock,
        largest_weight: state.largest_weight,
        weight_divisor: state.weight_divisor,
    }
}

fn service_to_library(service: Service) -> raw::Service {
    let Service { address, port, protocol, scheduler, servers } = service;
    raw::Service { address, port, protocol, scheduler, servers }
}

fn server_to_library(server: Server) -> raw::Server {
    let Server { address, port, weight, count } = server;
    raw::Server { address, port, weight, count }
}
