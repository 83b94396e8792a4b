//! What the daemon should do, told by the second implementation.

use crate::counts::Counts;
use reference::packets::{self, End};
use reference::{Answer, Change, Server, Service, State, PLACES};
use std::collections::BTreeMap;

pub const VIRTUAL: End = (0xC000_020A, 5432);
pub const SERVERS: [End; 2] = [(0x0A01_0005, 6432), (0x0A02_0005, 6432)];
pub const SLOTS: usize = 64;

/// The configuration of the daemon that the model follows.
pub const CONFIG: &str = "\
service 192.0.2.10:5432 tcp
scheduler weighted-round-robin
slots 64
server 10.1.0.5:6432 weight 2
server 10.2.0.5:6432 weight 1
unknown drop
opening-timeout 0
";

type PacketCall = fn(&mut State, &mut [u32], &mut [u8], u32) -> Answer;

/// The second implementation's director, the counts of its answers, and by client who is opening. Its clock stands still: no test takes the 120 s
/// after which that could make a difference.
pub struct Model {
    state: State,
    row: Vec<u32>,
    counts: Counts,
    opening: BTreeMap<End, bool>,
}

impl Model {
    pub fn new() -> Model {
        let service = Service {
            address: VIRTUAL.0,
            port: VIRTUAL.1,
            protocol: 6,
            scheduler: 2,
            servers: SERVERS.len() as u32,
        };
        let mut servers = [Server::default(); PLACES];
        for (place, (at, weight)) in servers.iter_mut().zip(SERVERS.into_iter().zip([2, 1])) {
            *place = Server { address: at.0, port: at.1, weight, count: 0 };
        }
        let (mut state, mut row) = (State::new(), vec![0; 5 * SLOTS]);
        assert_eq!(reference::set_up(&mut state, service, servers, &mut row), Answer::Done);
        Model { state, row, counts: Counts::default(), opening: BTreeMap::new() }
    }

    /// What the daemon should write on reading that packet.
    pub fn take(&mut self, packet: &[u8]) -> Option<Vec<u8>> {
        let mut packet = packet.to_vec();
        let inbound = packet.len() < 20 || packet[16..20] == VIRTUAL.0.to_be_bytes();
        let (way, call): (_, PacketCall) = match inbound {
            true => ("inbound", reference::inbound),
            false => ("outbound", reference::outbound),
        };
        let before = self.row.clone();
        match call(&mut self.state, &mut self.row, &mut packet, 0) {
            Answer::Passed(server, change) => {
                let count = format!("packets_total{{way=\"{way}\",answer=\"{}\"}}", name(change));
                self.counts.add(&format!("nidhaaguf_{count}"), 1);
                self.follow(&packet, inbound, server as usize, change, &before);
                Some(packet)
            }
            Answer::Refused(6) if packet.first().is_some_and(|first| first >> 4 == 6) => {
                self.counts.add("nidhaaguf_ipv6_packets_total", 1);
                None
            }
            Answer::Refused(number) => {
                let count = format!("refusals_total{{way=\"{way}\",number=\"{number}\"}}");
                self.counts.add(&format!("nidhaaguf_{count}"), 1);
                None
            }
            other => panic!("{other:?}"),
        }
    }

    /// Who is opening, and who has ended which connection: told by an accepted packet as it leaves, and the table before it.
    fn follow(
        &mut self,
        packet: &[u8],
        inbound: bool,
        server: usize,
        change: Change,
        before: &[u32],
    ) {
        let header = usize::from(packet[0] & 15) * 4;
        let place = if inbound { (12, header) } else { (16, header + 2) };
        let address = u32::from_be_bytes(packet[place.0..place.0 + 4].try_into().unwrap());
        let client = (address, u16::from_be_bytes([packet[place.1], packet[place.1 + 1]]));
        let of_client = |slot: &&[u32]| slot[0] != 0 && (slot[1], slot[2] as u16) == client;
        match change {
            Change::Opened => {
                if let Some(slot) = before.chunks(5).find(of_client) {
                    self.count_ending(slot[3] as usize, "renewed");
                }
                self.counts.add(&format!("nidhaaguf_openings_total{{{}}}", labels(server)), 1);
                self.opening.insert(client, true);
            }
            Change::Kept if inbound && packet[header + 13] & 0x17 != 0x02 => {
                self.opening.insert(client, false);
            }
            Change::Kept => {}
            Change::Ended => self.count_ending(server, if inbound { "client" } else { "server" }),
        }
    }

    /// A connection of that server was ended.
    pub fn count_ending(&mut self, server: usize, by: &str) {
        let name = format!("nidhaaguf_endings_total{{{},by=\"{by}\"}}", labels(server));
        self.counts.add(&name, 1);
    }

    /// A program of before has handed over: counts by server begin anew, and of no connection it is known that it is opening.
    pub fn forget_book(&mut self) {
        self.opening.clear();
        self.counts = self.counts.clone().without("nidhaaguf_openings_total");
        self.counts = self.counts.clone().without("nidhaaguf_endings_total");
    }

    pub fn set_weight(&mut self, server: u32, weight: u16) {
        let done = reference::set_weight(&mut self.state, &self.row, server, weight);
        assert_eq!(done, Answer::Done);
    }

    /// Accepted packets that a device that is down won't take.
    pub fn expect_write_failures(&mut self, more: u64) {
        self.counts.add("nidhaaguf_write_failures_total", more);
    }

    /// The counts that the daemon should tell.
    pub fn counts(&self) -> Counts {
        let mut counts = self.counts.clone();
        for (number, server) in self.state.used_servers().iter().enumerate() {
            let labels = labels(number);
            let name = format!("nidhaaguf_server_connections{{{labels}}}");
            counts.add(&name, u64::from(server.count));
            counts.add(&format!("nidhaaguf_weight{{{labels}}}"), u64::from(server.weight));
            counts.add("nidhaaguf_slots_used", u64::from(server.count));
        }
        for slot in self.row.chunks(5).filter(|slot| slot[0] != 0) {
            let is_opening = self.opening.get(&(slot[1], slot[2] as u16)) == Some(&true);
            let state = match slot[0] {
                1 if is_opening => "opening",
                1 => "open",
                2 => "client finished",
                3 => "server finished",
                _ => "finished",
            };
            let labels = format!("{},state=\"{state}\"", labels(slot[3] as usize));
            counts.add(&format!("nidhaaguf_connections{{{labels}}}"), 1);
        }
        counts.add("nidhaaguf_slots", SLOTS as u64);
        counts
    }

    pub fn packets(&self) -> u64 {
        self.counts.packets()
    }

    /// A client's packet for each connection there is.
    pub fn packets_of_all(&self, flags: u8) -> Vec<Vec<u8>> {
        let used = self.row.chunks(5).filter(|slot| slot[0] != 0);
        used.map(|slot| packets::tcp((slot[1], slot[2] as u16), VIRTUAL, flags).build()).collect()
    }
}

/// A server's labels in the metrics.
pub fn labels(number: usize) -> String {
    let (address, port) = SERVERS[number];
    format!("server=\"{number}\",address=\"{}:{port}\"", std::net::Ipv4Addr::from(address))
}

fn name(change: Change) -> &'static str {
    match change {
        Change::Opened => "opened",
        Change::Kept => "kept",
        Change::Ended => "ended",
    }
}
