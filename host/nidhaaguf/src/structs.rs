//! The C library's structs (include/nidhaaguf.h), field for field.

use std::mem::{offset_of, size_of};

/// Places for servers in a state.
pub const PLACES: usize = 64;

/// Words of the row that a connection takes.
pub const WORDS_PER_SLOT: usize = 5;

/// Bytes of a burst's packets from one packet to the next: packet k begins at byte `PLACE` * k.
pub const PLACE: usize = 2_048;

/// Words of a burst's record.
pub const WORDS_PER_RECORD: usize = 4;

/// The longest IPv4 packet, with one byte to spare: a serve reads on while so many bytes of its buffer are left.
pub const LONGEST: usize = 65_536;

/// Words of a serve's record.
pub const WORDS_PER_TRACED: usize = 5;

/// Counters of a serve: 23 for each way, inbound first. A refusal's place goes by its number, up to 20.
pub const COUNTERS: usize = 46;

/// A server; its number is its place.
#[repr(C)]
#[derive(Clone, Copy, Debug, Default, PartialEq, Eq)]
pub struct Server {
    pub address: u32,
    pub port: u16,
    pub weight: u16,
    pub count: u32,
}

/// What is served: the virtual address and port, protocol, scheduler, and how many servers.
#[repr(C)]
#[derive(Clone, Copy, Debug, Default, PartialEq, Eq)]
pub struct Service {
    pub address: u32,
    pub port: u16,
    pub protocol: u8,
    pub scheduler: u8,
    pub servers: u32,
}

/// The servers that setup is given.
#[repr(C)]
#[derive(Clone, Copy, Debug, PartialEq, Eq)]
pub struct Servers {
    pub server: [Server; PLACES],
}

/// What passes from call to call beside the row.
#[repr(C)]
#[derive(Clone, Copy, Debug, PartialEq, Eq)]
pub struct State {
    pub service: Service,
    pub clock: u32,
    pub servers: [Server; PLACES],
    /// The scheduler's walk: 0 before the first server, k + 1 at server k.
    pub place: u64,
    pub level: u16,
    /// The largest weight of the servers in use, and the greatest common divisor of their weights; 0 where all are 0.
    pub largest_weight: u16,
    pub weight_divisor: u16,
}

/// What a call gives back.
#[repr(C)]
#[derive(Clone, Copy, Debug, PartialEq, Eq)]
pub struct Answer {
    pub state: State,
    /// 0 for accepted, else the refusal's number.
    pub refusal: u32,
    /// Accepted: the count, how many connections a tick removed, or a packet's server; else 0.
    pub number: u32,
    /// An accepted packet: 1 opened, 2 kept, 3 ended; else 0.
    pub change: u32,
}

/// Of a burst's packet: its length in, its answer out.
#[repr(C)]
#[derive(Clone, Copy, Debug, Default, PartialEq, Eq)]
pub struct Record {
    pub length: u32,
    /// 0 for accepted, else the refusal's number.
    pub refusal: u32,
    /// Accepted: the server's number; else 0.
    pub server: u32,
    /// Accepted: 1 opened, 2 kept, 3 ended; else 0.
    pub change: u32,
}

/// Of a packet that a serve has taken.
#[repr(C)]
#[derive(Clone, Copy, Debug, Default, PartialEq, Eq)]
pub struct Traced {
    /// Its bytes, which stand in the buffer behind those of the packet before.
    pub length: u32,
    /// Which call it was given to: 0 inbound, 1 outbound.
    pub way: u32,
    /// 0 for accepted, else the refusal's number.
    pub refusal: u32,
    /// Accepted: the server's number; else 0.
    pub server: u32,
    /// Accepted: 1 opened, 2 kept, 3 ended; else 0.
    pub change: u32,
}

/// What a serve gives back.
#[repr(C)]
#[derive(Clone, Copy, Debug, PartialEq, Eq)]
pub struct Served {
    pub state: State,
    /// The tick's: 0 for accepted, 11 or 15.
    pub refusal: u32,
    /// How many connections the tick removed; 0 where it is refused.
    pub removed: u32,
    /// Packets that were read, accepted or refused.
    pub taken: u32,
    /// Of these, accepted ones that the descriptor didn't take.
    pub unsent: u32,
}

impl Default for State {
    /// All zeros: good only to be handed to a setup.
    fn default() -> State {
        State {
            service: Service::default(),
            clock: 0,
            servers: [Server::default(); PLACES],
            place: 0,
            level: 0,
            largest_weight: 0,
            weight_divisor: 0,
        }
    }
}

// The layout of the header's structs; a mismatch would be read as other fields, so it doesn't compile.
const _: () = assert!(size_of::<Server>() == 12 && size_of::<Service>() == 12);
const _: () = assert!(size_of::<Servers>() == 768);
const _: () = assert!(size_of::<State>() == 800 && size_of::<Answer>() == 816);
const _: () = assert!(offset_of!(Server, address) == 0 && offset_of!(Server, port) == 4);
const _: () = assert!(offset_of!(Server, weight) == 6 && offset_of!(Server, count) == 8);
const _: () = assert!(offset_of!(Service, address) == 0 && offset_of!(Service, port) == 4);
const _: () = assert!(offset_of!(Service, protocol) == 6 && offset_of!(Service, scheduler) == 7);
const _: () = assert!(offset_of!(Service, servers) == 8);
const _: () = assert!(offset_of!(State, service) == 0 && offset_of!(State, clock) == 12);
const _: () = assert!(offset_of!(State, servers) == 16 && offset_of!(State, place) == 784);
const _: () = assert!(offset_of!(State, level) == 792);
const _: () = assert!(offset_of!(State, largest_weight) == 794);
const _: () = assert!(offset_of!(State, weight_divisor) == 796);
const _: () = assert!(offset_of!(Answer, state) == 0 && offset_of!(Answer, refusal) == 800);
const _: () = assert!(offset_of!(Answer, number) == 804 && offset_of!(Answer, change) == 808);
const _: () = assert!(size_of::<Record>() == 16 && size_of::<Served>() == 816);
const _: () = assert!(offset_of!(Record, length) == 0 && offset_of!(Record, refusal) == 4);
const _: () = assert!(offset_of!(Record, server) == 8 && offset_of!(Record, change) == 12);
const _: () = assert!(offset_of!(Served, state) == 0 && offset_of!(Served, refusal) == 800);
const _: () = assert!(offset_of!(Served, removed) == 804 && offset_of!(Served, taken) == 808);
const _: () = assert!(offset_of!(Served, unsent) == 812);
const _: () = assert!(size_of::<Traced>() == 20);
const _: () = assert!(offset_of!(Traced, length) == 0 && offset_of!(Traced, way) == 4);
const _: () = assert!(offset_of!(Traced, refusal) == 8 && offset_of!(Traced, server) == 12);
const _: () = assert!(offset_of!(Traced, change) == 16);
