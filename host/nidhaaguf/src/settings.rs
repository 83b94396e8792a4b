//! What a director is set up with.

use crate::raw;
use std::net::SocketAddrV4;

/// The protocol that is served.
#[derive(Clone, Copy, Debug, PartialEq, Eq, Hash)]
pub enum Protocol {
    Tcp = 6,
    Udp = 17,
}

/// How the server of a new connection is picked, always among those with a weight above 0.
#[derive(Clone, Copy, Debug, PartialEq, Eq, Hash)]
pub enum Scheduler {
    /// Each in turn.
    RoundRobin = 1,
    /// In turn, and in proportion to the weights.
    WeightedRoundRobin = 2,
    /// The one with the fewest connections.
    LeastConnection = 3,
    /// The one with the fewest connections for its weight.
    WeightedLeastConnection = 4,
}

impl Scheduler {
    /// All of them, the lowest number first.
    pub const ALL: [Scheduler; 4] = [
        Scheduler::RoundRobin,
        Scheduler::WeightedRoundRobin,
        Scheduler::LeastConnection,
        Scheduler::WeightedLeastConnection,
    ];
}

/// A server: where it is, and its weight. Weight 0 gets no new connections.
#[derive(Clone, Copy, Debug, PartialEq, Eq, Hash)]
pub struct Server {
    pub at: SocketAddrV4,
    pub weight: u16,
}

/// What is served, and by whom. A server's number is its place in `servers`, from 0.
///
/// ```
/// use nidhaaguf::{Protocol, Scheduler, Settings};
///
/// let settings = Settings::new("192.0.2.10:53".parse()?, Protocol::Udp, Scheduler::LeastConnection)
///     .server("10.1.0.5:5353".parse()?, 1)
///     .server("10.1.0.6:5353".parse()?, 1);
/// assert_eq!(settings.servers.len(), 2);
/// # Ok::<(), std::net::AddrParseError>(())
/// ```
#[derive(Clone, Debug, PartialEq, Eq, Hash)]
pub struct Settings {
    /// The virtual address and port, to which clients send.
    pub service: SocketAddrV4,
    pub protocol: Protocol,
    pub scheduler: Scheduler,
    pub servers: Vec<Server>,
}

impl Settings {
    /// Settings without servers.
    pub fn new(service: SocketAddrV4, protocol: Protocol, scheduler: Scheduler) -> Settings {
        Settings { service, protocol, scheduler, servers: Vec::new() }
    }

    /// The same with one more server, which gets the next number.
    pub fn server(mut self, at: SocketAddrV4, weight: u16) -> Settings {
        self.servers.push(Server { at, weight });
        self
    }

    /// The settings of a state, with the weights that it has now; for a sound one, whose numbers are those of the enums.
    pub(crate) fn of_state(state: &raw::State) -> Settings {
        let at = |address: u32, port| SocketAddrV4::new(address.into(), port);
        let raw::Service { address, port, protocol, scheduler, servers } = state.service;
        let protocol = if protocol == Protocol::Tcp as u8 { Protocol::Tcp } else { Protocol::Udp };
        let of_number = |of: &Scheduler| *of as u8 == scheduler;
        let scheduler = Scheduler::ALL.into_iter().find(of_number).unwrap_or(Scheduler::RoundRobin);
        let servers = state.servers.iter().take(servers as usize);
        let servers = servers
            .map(|server| Server { at: at(server.address, server.port), weight: server.weight })
            .collect();
        Settings { service: at(address, port), protocol, scheduler, servers }
    }

    pub(crate) fn raw_service(&self) -> raw::Service {
        raw::Service {
            address: (*self.service.ip()).into(),
            port: self.service.port(),
            protocol: self.protocol as u8,
            scheduler: self.scheduler as u8,
            // past 64 they are refused by their number
            servers: u32::try_from(self.servers.len()).unwrap_or(u32::MAX),
        }
    }

    pub(crate) fn raw_servers(&self) -> raw::Servers {
        let mut server = [raw::Server::default(); raw::PLACES];
        for (place, given) in server.iter_mut().zip(&self.servers) {
            let address = (*given.at.ip()).into();
            *place = raw::Server { address, port: given.at.port(), weight: given.weight, count: 0 };
        }
        raw::Servers { server }
    }
}
