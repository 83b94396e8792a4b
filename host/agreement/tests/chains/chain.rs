//! A chain of directors, each the only server of the one before it, and packets through it.

use crate::support::{told, Both, KEPT, OPENED};
use agreement::call::{Call, Told};
use agreement::many::singly::Way;
use agreement::world::World;
use reference::data::{TCP, UDP};
use reference::header::{word, CHECKSUM_AT};
use reference::packets::{self, End, Plan, ACK, SYN};
use reference::segment::{TCP_CHECKSUM_AT, UDP_CHECKSUM_AT};
use reference::{Server, Service};

pub const CLIENT: End = (0x0A00_0001, 40_000);

/// Protocols and ways.
pub const KINDS: [(u8, Way); 4] =
    [(TCP, Way::Inbound), (TCP, Way::Outbound), (UDP, Way::Inbound), (UDP, Way::Outbound)];

/// A client's packet to the first of these ends, or one from the last of them to the client.
pub fn plan((protocol, way): (u8, Way), client: End, ends: &[End]) -> Plan {
    let (source, destination, flags) = match way {
        Way::Inbound => (client, ends[0], SYN),
        Way::Outbound => (ends[ends.len() - 1], client, ACK),
    };
    match protocol {
        UDP => packets::udp(source, destination),
        _ => packets::tcp(source, destination, flags),
    }
}

/// Setup of a director that serves the first end and has the second as its server.
pub fn set_up(protocol: u8, (address, port): End, server: End) -> (Told, Both) {
    let service = Service { address, port, protocol, scheduler: 1, servers: 1 };
    let server = Server { address: server.0, port: server.1, weight: 1, count: 0 };
    let mut both = Both(World::new());
    (both.set_up_servers(service, &[server], 5), both)
}

/// The packet as it leaves a director that accepts it.
fn accepted(both: &mut Both, call: Call, change: u32) -> Vec<u8> {
    let (answer, left) = both.make(call);
    assert_eq!(answer, told(0, change));
    left
}

/// Directors from the first of some ends, by the others, to the last.
struct Chain(Vec<Both>);

impl Chain {
    fn new(protocol: u8, ends: &[End]) -> Chain {
        let directors = ends.windows(2).map(|pair| {
            let (answer, both) = set_up(protocol, pair[0], pair[1]);
            assert_eq!(answer, told(0, 0));
            both
        });
        Chain(directors.collect())
    }

    /// A client's first packet.
    fn opened(&mut self, packet: Vec<u8>) -> Vec<u8> {
        let inbound = |packet| Call::Inbound { packet, clock: 0 };
        self.0.iter_mut().fold(packet, |packet, both| accepted(both, inbound(packet), OPENED))
    }

    /// A reply: through the last director first.
    fn replied(&mut self, packet: Vec<u8>) -> Vec<u8> {
        let outbound = |packet| Call::Outbound { packet, clock: 0 };
        let last_first = self.0.iter_mut().rev();
        last_first.fold(packet, |packet, both| accepted(both, outbound(packet), KEPT))
    }
}

/// A packet of a client's connection.
#[derive(Clone, Debug)]
pub struct Packet {
    pub way: Way,
    pub client: End,
    pub bytes: Vec<u8>,
}

impl Packet {
    /// As it leaves the chain of these ends.
    pub fn through(&self, ends: &[End]) -> Packet {
        let protocol = self.protocol();
        let mut chain = Chain::new(protocol, ends);
        let bytes = match self.way {
            Way::Inbound => chain.opened(self.bytes.clone()),
            Way::Outbound => {
                chain.opened(plan((protocol, Way::Inbound), self.client, ends).build());
                chain.replied(self.bytes.clone())
            }
        };
        Packet { bytes, ..*self }
    }

    pub fn protocol(&self) -> u8 {
        self.bytes[9]
    }

    pub fn transport_checksum_at(&self) -> usize {
        let at = if self.protocol() == UDP { UDP_CHECKSUM_AT } else { TCP_CHECKSUM_AT };
        usize::from(self.bytes[0] & 15) * 4 + at
    }

    pub fn header_checksum(&self) -> u16 {
        word(&self.bytes, CHECKSUM_AT)
    }

    pub fn transport_checksum(&self) -> u16 {
        word(&self.bytes, self.transport_checksum_at())
    }

    /// The same packet but for the word at a place.
    pub fn with_word(&self, at: usize, word: u16) -> Packet {
        let mut packet = self.clone();
        packet.bytes[at..at + 2].copy_from_slice(&word.to_be_bytes());
        packet
    }
}
