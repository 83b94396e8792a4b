//! The book's own reading of a packet's bytes.

use super::Settings;
use crate::data::TCP;

/// An address and a port.
pub type End = (u32, u16);

/// From a client or from a server.
#[derive(Clone, Copy, Debug, PartialEq, Eq)]
pub enum Way {
    Inbound,
    Outbound,
}

/// Ends and flags of a packet; the flags are all false for UDP.
#[derive(Clone, Copy, Debug, PartialEq, Eq)]
pub struct Reading {
    pub source: End,
    pub destination: End,
    pub fin: bool,
    pub syn: bool,
    pub rst: bool,
    pub ack: bool,
    pub tcp: bool,
}

impl Reading {
    /// "an inbound packet's source, an outbound packet's destination"
    pub fn client(&self, way: Way) -> End {
        match way {
            Way::Inbound => self.source,
            Way::Outbound => self.destination,
        }
    }

    /// "TCP inbound with SYN set and ACK, RST, FIN clear; any UDP inbound"
    pub fn could_open(&self, way: Way) -> bool {
        self.could_renew(way) || way == Way::Inbound && !self.tcp
    }

    /// "an inbound packet with SYN set and ACK, RST, FIN clear"
    pub fn could_renew(&self, way: Way) -> bool {
        way == Way::Inbound && self.syn && !(self.ack || self.rst || self.fin)
    }
}

fn number(bytes: &[u8]) -> usize {
    bytes.iter().fold(0, |value, &byte| value << 8 | usize::from(byte))
}

fn end(address: &[u8], port: &[u8]) -> End {
    (number(address) as u32, number(port) as u16)
}

/// The packet where the order comes to 11, or None where one of 6, 20 and 7 to 10 falls before.
pub fn read(packet: &[u8], settings: &Settings, way: Way) -> Option<Reading> {
    let (head, payload) = split(packet)?;
    // 20: the header's words, checksum included, must come to FFFF
    if ones_sum(head) != 0xFFFF {
        return None;
    }
    // 7 and 8
    if number(&head[6..8]) & 0x3FFF != 0 || head[9] != settings.service.protocol {
        return None;
    }
    let reading = read_payload(head, payload)?;
    // 10
    let ours = match way {
        Way::Inbound => reading.destination == (settings.service.address, settings.service.port),
        Way::Outbound => settings.number_of(reading.source).is_some(),
    };
    ours.then_some(reading)
}

/// The ends of a packet that left, from its bytes alone.
pub fn ends(packet: &[u8]) -> Option<(End, End)> {
    let (head, payload) = split(packet)?;
    let source = end(&head[12..16], payload.get(0..2)?);
    let destination = end(&head[16..20], payload.get(2..4)?);
    Some((source, destination))
}

/// 6: the header with its options, and the payload.
fn split(packet: &[u8]) -> Option<(&[u8], &[u8])> {
    let fixed = packet.get(..20)?;
    let length = match fixed[0] {
        first @ 0x45..=0x4F => usize::from(first - 0x40) * 4,
        _ => return None,
    };
    let total = number(&fixed[2..4]);
    let datagram = packet.get(..total)?;
    Some((datagram.get(..length)?, datagram.get(length..)?))
}

/// 9, and what the payload tells.
fn read_payload(head: &[u8], payload: &[u8]) -> Option<Reading> {
    let tcp = head[9] == TCP;
    let fits = if tcp {
        payload.len() >= 20 && (20..=payload.len()).contains(&(usize::from(payload[12] / 16) * 4))
    } else {
        payload.len() >= 8 && number(&payload[4..6]) == payload.len()
    };
    if !fits {
        return None;
    }
    let flags = if tcp { payload[13] } else { 0 };
    Some(Reading {
        source: end(&head[12..16], &payload[0..2]),
        destination: end(&head[16..20], &payload[2..4]),
        fin: flags & 1 == 1,
        syn: flags >> 1 & 1 == 1,
        rst: flags >> 2 & 1 == 1,
        ack: flags >> 4 & 1 == 1,
        tcp,
    })
}

/// RFC 1071 over whole words, the carry brought round at each.
fn ones_sum(head: &[u8]) -> usize {
    head.chunks_exact(2).map(number).fold(0, |sum, word| {
        let next = sum + word;
        next % 0x10000 + next / 0x10000
    })
}
