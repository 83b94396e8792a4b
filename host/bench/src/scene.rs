//! What a call is measured on: a sound state over a nearly full table, and packets.

use nidhaaguf::raw;
use reference::packets;

const SERVICE: (u32, u16) = (0xC000020A, 5432);
pub const CLOCK: u32 = 1000;
/// A client that has no connection.
pub const NEW: (u32, u16) = (0x0B000001, 40000);

/// What is measured: a client's packet of a connection that is there, its server's, a packet that opens, one that renews, a tick.
#[derive(Clone, Copy, PartialEq)]
pub enum Call {
    Kept,
    Outbound,
    Opening,
    Renewal,
    Tick,
}

impl Call {
    pub fn named(name: &str) -> Option<Call> {
        match name {
            "kept" => Some(Call::Kept),
            "outbound" => Some(Call::Outbound),
            "opening" => Some(Call::Opening),
            "renewal" => Some(Call::Renewal),
            "tick" => Some(Call::Tick),
            _ => None,
        }
    }

    /// Whether one call can take many of it.
    pub fn is_of_many(self) -> bool {
        matches!(self, Call::Kept | Call::Outbound | Call::Opening)
    }
}

/// How a scene is made.
#[derive(Clone, Copy)]
pub struct Plan {
    pub slots: usize,
    pub servers: usize,
    /// Slots at the end that are free; of the others at least one is used.
    pub free: usize,
    pub clients: Clients,
    /// Whether the packets are of the client in the first slot, and not of the one in the last that is used.
    pub first: bool,
    pub scheduler: u8,
    pub weights: Weights,
}

/// State, row and packet, in the library's layout and in the second implementation's.
#[derive(Clone)]
pub struct Scene {
    pub call: Call,
    pub plan: Plan,
    pub state: raw::State,
    pub twin: reference::State,
    pub row: Vec<u32>,
    pub packet: Vec<u8>,
    /// What the packet was.
    fresh: Vec<u8>,
}

impl Scene {
    /// The used slots are by clients of their own. The walk is at the scheduler's start.
    pub fn new(call: Call, plan: Plan) -> Scene {
        let servers = plan.servers;
        let service = raw::Service {
            address: SERVICE.0,
            port: SERVICE.1,
            protocol: 6,
            scheduler: plan.scheduler,
            servers: servers as u32,
        };
        let place = walk_start(plan.scheduler, servers);
        let mut state = raw::State { service, clock: CLOCK, place, ..raw::State::default() };
        for (number, server) in state.servers[..servers].iter_mut().enumerate() {
            let (address, port) = server_end(number);
            *server = raw::Server { address, port, weight: plan.weights.weight(number), count: 0 };
        }
        let mut row = vec![0; plan.slots * raw::WORDS_PER_SLOT];
        for slot in 0..plan.used() {
            let server = slot % servers;
            let (address, port) = plan.clients.client(slot);
            let words = [1, address, port.into(), server as u32, CLOCK];
            row[5 * slot..5 * slot + 5].copy_from_slice(&words);
            state.servers[server].count += 1;
        }
        let state = state.with_largest_weight_and_divisor();
        let (twin, fresh) = (twin_of(&state), packet_of(call, &plan, 0));
        // else refusals would be measured
        assert_eq!(raw::count(state, &row, 0).refusal, 0, "the state is not sound");
        assert!(reference::is_sound(&twin, &row), "the second implementation's is not sound");
        Scene { call, plan, state, twin, row, packet: fresh.clone(), fresh }
    }

    /// As it was, for another call.
    pub fn again(&mut self, first: &Scene) {
        self.state.clock = first.state.clock;
        self.twin.clock = first.twin.clock;
    }

    /// Packet `number` of a call that takes many.
    pub fn fresh_packet(&self, number: usize) -> Vec<u8> {
        packet_of(self.call, &self.plan, number)
    }

    /// The packet as it came.
    pub fn set_packet(&mut self) {
        self.packet.copy_from_slice(&self.fresh);
        if self.call == Call::Renewal {
            self.finish_last();
        }
    }

    /// The last connection is one that both have finished. (A renewal left another there, for a state that is thrown away.)
    fn finish_last(&mut self) {
        let at = raw::WORDS_PER_SLOT * (self.plan.used() - 1);
        self.row[at] = 4;
        self.row[at + 3] = (self.plan.used() as u32 - 1) % self.state.service.servers;
    }
}

impl Plan {
    pub fn used(&self) -> usize {
        self.slots.saturating_sub(self.free).max(1)
    }

    /// Whose packets are measured.
    fn slot(&self) -> usize {
        if self.first {
            0
        } else {
            self.used() - 1
        }
    }
}

/// Packet `number` of those that a call is measured with; each that opens is of a client of its own.
fn packet_of(call: Call, plan: &Plan, number: usize) -> Vec<u8> {
    let client = plan.clients.client(plan.slot());
    let packet = match call {
        Call::Kept | Call::Tick => packets::tcp(client, SERVICE, 16),
        Call::Outbound => packets::tcp(server_end(plan.slot() % plan.servers), client, 16),
        Call::Opening => packets::tcp((NEW.0, NEW.1 + number as u16), SERVICE, 2),
        Call::Renewal => packets::tcp(client, SERVICE, 2),
    };
    packet.build()
}

fn server_end(number: usize) -> (u32, u16) {
    (0x0A010001 + number as u32, 6432)
}

/// Where a scheduler's walk starts, as the state has it: 0 before the first server, k + 1 at server k.
fn walk_start(scheduler: u8, servers: usize) -> u64 {
    match scheduler {
        1 => servers as u64,
        2 => 0,
        _ => 1,
    }
}

/// How the clients differ.
#[derive(Clone, Copy)]
pub enum Clients {
    /// Few addresses with many ports each, as application servers in front of a database have.
    FewAddresses,
    /// An address for each, and one port.
    OnePort,
}

impl Clients {
    fn client(self, slot: usize) -> (u32, u16) {
        match self {
            Clients::FewAddresses => (0x0A000001 + slot as u32 % 16, 1024 + slot as u16),
            Clients::OnePort => (0x0A000001 + slot as u32, 1024),
        }
    }
}

/// How the servers are weighted.
#[derive(Clone, Copy)]
pub enum Weights {
    /// All alike.
    Equal,
    /// Two in turn with which Euclid's algorithm takes its most steps: the last neighbours of Fibonacci's below 65,536.
    Worst,
    /// All 0.
    None,
}

impl Weights {
    fn weight(self, server: usize) -> u16 {
        match self {
            Weights::Equal => 1,
            Weights::Worst => [46_368, 28_657][server % 2],
            Weights::None => 0,
        }
    }
}

fn twin_of(state: &raw::State) -> reference::State {
    let mut twin = reference::State::new();
    let service = state.service;
    twin.service = reference::Service {
        address: service.address,
        port: service.port,
        protocol: service.protocol,
        scheduler: service.scheduler,
        servers: service.servers,
    };
    for (to, from) in twin.servers.iter_mut().zip(&state.servers) {
        *to = reference::Server {
            address: from.address,
            port: from.port,
            weight: from.weight,
            count: from.count,
        };
    }
    twin.walk = reference::Walk { place: state.place as i64 - 1, level: state.level };
    twin.clock = state.clock;
    reference::weights::make_true(&mut twin);
    twin
}
