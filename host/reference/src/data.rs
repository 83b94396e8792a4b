//! Plain data: what a call is handed and what it answers.

/// "The servers are an array of 64."
pub const PLACES: usize = 64;

/// Protocol numbers of a service.
pub const TCP: u8 = 6;
pub const UDP: u8 = 17;

/// Scheduler numbers of a service.
pub const ROUND_ROBIN: u8 = 1;
pub const WEIGHTED_ROUND_ROBIN: u8 = 2;
pub const LEAST_CONNECTION: u8 = 3;
pub const WEIGHTED_LEAST_CONNECTION: u8 = 4;

/// A server; its number is its place in the array.
#[derive(Clone, Copy, Debug, Default, PartialEq, Eq)]
pub struct Server {
    pub address: u32,
    pub port: u16,
    pub weight: u16,
    pub count: u32,
}

/// The virtual address and port, the protocol, the scheduler, how many servers.
#[derive(Clone, Copy, Debug, Default, PartialEq, Eq)]
pub struct Service {
    pub address: u32,
    pub port: u16,
    pub protocol: u8,
    pub scheduler: u8,
    pub servers: u32,
}

/// The scheduler's walk: `place` is the document's i (or last pick), `level` its cw.
#[derive(Clone, Copy, Debug, Default, PartialEq, Eq)]
pub struct Walk {
    pub place: i64,
    pub level: u16,
}

/// All that passes from call to call beside the row.
#[derive(Clone, Copy, Debug, PartialEq, Eq)]
pub struct State {
    pub service: Service,
    pub servers: [Server; PLACES],
    pub walk: Walk,
    pub clock: u32,
    /// The largest weight of the servers in use, and the greatest common divisor of their weights:
    /// "0 when all weights are 0".
    pub largest_weight: u16,
    pub weight_divisor: u16,
}

impl State {
    /// All zeros: not sound, and good only to be handed to a setup.
    pub fn new() -> State {
        State {
            service: Service::default(),
            servers: [Server::default(); PLACES],
            walk: Walk::default(),
            clock: 0,
            largest_weight: 0,
            weight_divisor: 0,
        }
    }

    /// The servers in use: none past the array, whatever the service claims.
    pub fn used_servers(&self) -> &[Server] {
        let used = (self.service.servers as usize).min(PLACES);
        &self.servers[..used]
    }

    /// The weights of the servers in use.
    pub fn weights(&self) -> impl Iterator<Item = u16> + Clone + '_ {
        self.used_servers().iter().map(|server| server.weight)
    }
}

impl Default for State {
    fn default() -> State {
        State::new()
    }
}

/// A server's number, never a slot's.
#[derive(Clone, Copy, Debug, PartialEq, Eq)]
pub struct ServerNumber(pub usize);

/// "A connection is known by client address and port."
#[derive(Clone, Copy, Debug, PartialEq, Eq)]
pub struct Client {
    pub address: u32,
    pub port: u16,
}

/// What an accepted packet did to its connection.
#[derive(Clone, Copy, Debug, PartialEq, Eq)]
pub enum Change {
    Opened,
    Kept,
    Ended,
}

/// A call's answer.
#[derive(Clone, Copy, Debug, PartialEq, Eq)]
pub enum Answer {
    /// Setup and weight, accepted.
    Done,
    /// Count: the count. Tick: how many connections were removed.
    Number(u32),
    /// A packet, accepted: the server's number and what happened.
    Passed(u32, Change),
    /// A refusal by its number in the document.
    Refused(u8),
}
