//! A director under test: state and row together, and packets for it.

use reference::data::{TCP, UDP};
use reference::packets::{self, Plan};
use reference::*;

pub const VIRTUAL: (u32, u16) = (0xC000_020A, 5432);

/// The address and port of server `number` in the tests.
pub fn server_end(number: usize) -> (u32, u16) {
    (0x0A01_0005 + number as u32, 6432)
}

/// The address and port of client `number` in the tests.
pub fn client(number: usize) -> (u32, u16) {
    (0x0A00_0001 + number as u32, 40_000)
}

pub fn service(protocol: u8, scheduler: u8, servers: u32) -> Service {
    Service { address: VIRTUAL.0, port: VIRTUAL.1, protocol, scheduler, servers }
}

pub fn servers(weights: &[u16]) -> [Server; PLACES] {
    let mut all = [Server::default(); PLACES];
    for (number, &weight) in weights.iter().enumerate() {
        let (address, port) = server_end(number);
        all[number] = Server { address, port, weight, count: 0 };
    }
    all
}

/// The largest weight and the greatest number that divides every weight, found by trying; 0 where every weight is 0.
pub fn largest_and_divisor(state: &State) -> (u16, u16) {
    let largest = state.weights().max().unwrap();
    let divides_all = |number: &u16| state.weights().all(|weight| weight % number == 0);
    (largest, (1..=largest).rev().find(divides_all).unwrap_or(0))
}

#[derive(Clone, PartialEq, Debug)]
pub struct Director {
    pub state: State,
    pub row: Vec<u32>,
}

impl Director {
    pub fn new(protocol: u8, scheduler: u8, weights: &[u16], slots: usize) -> Director {
        let mut director = Director { state: State::new(), row: vec![7; slots * 5] };
        let service = service(protocol, scheduler, weights.len() as u32);
        let answer = set_up(&mut director.state, service, servers(weights), &mut director.row);
        assert_eq!(answer, Answer::Done);
        assert!(director.sound());
        director
    }

    pub fn tcp(weights: &[u16], slots: usize) -> Director {
        Director::new(TCP, 1, weights, slots)
    }

    pub fn udp(weights: &[u16], slots: usize) -> Director {
        Director::new(UDP, 1, weights, slots)
    }

    pub fn sound(&self) -> bool {
        is_sound(&self.state, &self.row)
    }

    /// Fills a slot by hand, its server's count with it.
    pub fn place(&mut self, slot: usize, words: [u32; 5]) {
        self.row[slot * 5..slot * 5 + 5].copy_from_slice(&words);
        self.state.servers[words[3] as usize].count += 1;
    }

    /// `each[n]` connections of clients 100 and on for server n, seen at 0.
    pub fn fill(&mut self, each: &[u32]) {
        let mut slot = 0;
        for (server, &count) in each.iter().enumerate() {
            for _ in 0..count {
                let (address, port) = client(100 + slot);
                self.place(slot, [1, address, u32::from(port), server as u32, 0]);
                slot += 1;
            }
        }
        assert!(self.sound());
    }

    pub fn slot(&self, slot: usize) -> [u32; 5] {
        self.row[slot * 5..slot * 5 + 5].try_into().unwrap()
    }

    /// The largest weight and the divisor that the state holds.
    pub fn held(&self) -> (u16, u16) {
        (self.state.largest_weight, self.state.weight_divisor)
    }

    pub fn counts(&self) -> Vec<u32> {
        self.state.used_servers().iter().map(|s| s.count).collect()
    }

    pub fn weight(&mut self, number: u32, weight: u16) -> Answer {
        set_weight(&mut self.state, &self.row, number, weight)
    }

    pub fn count(&self, number: u32) -> Answer {
        count(&self.state, &self.row, number)
    }

    pub fn tick(&mut self, clock: u32) -> Answer {
        tick(&mut self.state, &mut self.row, clock)
    }

    pub fn inbound(&mut self, packet: &mut [u8], clock: u32) -> Answer {
        inbound(&mut self.state, &mut self.row, packet, clock)
    }

    pub fn outbound(&mut self, packet: &mut [u8], clock: u32) -> Answer {
        outbound(&mut self.state, &mut self.row, packet, clock)
    }

    /// A packet from client `number` with these flags (none for UDP).
    pub fn client_sends(&mut self, number: usize, flags: u8, clock: u32) -> Answer {
        let mut packet = client_plan(self.state.service.protocol, number, flags).build();
        self.inbound(&mut packet, clock)
    }

    /// A packet from a server to client `number`.
    pub fn server_sends(&mut self, server: usize, number: usize, flags: u8, clock: u32) -> Answer {
        let mut plan = packets::tcp(server_end(server), client(number), flags);
        if self.state.service.protocol == UDP {
            plan = packets::udp(server_end(server), client(number));
        }
        self.outbound(&mut plan.build(), clock)
    }
}

pub fn client_plan(protocol: u8, number: usize, flags: u8) -> Plan {
    match protocol {
        UDP => packets::udp(client(number), VIRTUAL),
        _ => packets::tcp(client(number), VIRTUAL, flags),
    }
}

/// Servers picked for the clients `first`, `first + 1` and on, all opening at clock 0.
pub fn picks(director: &mut Director, first: usize, how_many: usize) -> Vec<u32> {
    (first..first + how_many)
        .map(|number| match director.client_sends(number, packets::SYN, 0) {
            Answer::Passed(server, Change::Opened) => server,
            other => panic!("client {number}: {other:?}"),
        })
        .collect()
}
