//! The TCP segments that the program itself sends: resets and bare acknowledgments, none with data or options.

use crate::packet::{Packet, ACK, FIN, RST, SYN};
use nidhaaguf::Protocol;
use std::net::{Ipv4Addr, SocketAddrV4};

/// The bytes of such a segment: two headers without options.
pub const LENGTH: usize = 40;

const HEADER: usize = 20;
const DO_NOT_FRAGMENT: u16 = 0x4000;
const TIME_TO_LIVE: u8 = 64;

/// A segment without data.
#[derive(Clone, Copy, Debug, PartialEq, Eq)]
pub struct Segment {
    /// Its source.
    pub from: SocketAddrV4,
    /// Its destination.
    pub to: SocketAddrV4,
    /// Its sequence number.
    pub sequence: u32,
    /// Its acknowledgment number.
    pub acknowledgment: u32,
    /// Its flags.
    pub flags: u8,
}

impl Segment {
    /// A reset by one who doesn't know the sequence numbers.
    pub fn reset(from: SocketAddrV4, to: SocketAddrV4) -> Segment {
        Segment { from, to, sequence: 0, acknowledgment: 0, flags: RST }
    }

    /// An acknowledgment of nothing. A host that has the connection answers it with its own numbers, since these don't fit (RFC
    /// 9293, 3.10.7.4).
    pub fn bare_acknowledgment(from: SocketAddrV4, to: SocketAddrV4) -> Segment {
        Segment { from, to, sequence: 0, acknowledgment: 0, flags: ACK }
    }

    /// What a host that doesn't know the connection answers to a segment (RFC 9293, 3.10.7.1); None where it answers nothing: to a
    /// reset, a damaged segment, or one that no host has sent.
    pub fn answer_to(bytes: &[u8]) -> Option<Segment> {
        let packet = Packet::read(bytes)?;
        let header = packet.payload.first_chunk::<HEADER>()?;
        let [_, _, _, _, a, b, c, d, e, f, g, h, offset, flags, ..] = *header;
        let data = packet.payload.len().checked_sub(usize::from(offset >> 4) * 4)?;
        let is_whole = offset >> 4 >= 5 && is_tcp_with_right_checksum(&packet);
        if !is_whole || flags & RST != 0 || !is_of_a_host(packet.source) {
            return None;
        }
        let (from, to) = (packet.receiver()?, packet.sender()?);
        if flags & ACK != 0 {
            let sequence = u32::from_be_bytes([e, f, g, h]);
            return Some(Segment { sequence, ..Segment::reset(from, to) });
        }
        let counted = u32::from(flags & SYN != 0) + u32::from(flags & FIN != 0);
        let sequence = u32::from_be_bytes([a, b, c, d]);
        let acknowledgment = sequence.wrapping_add(data as u32).wrapping_add(counted);
        Some(Segment { acknowledgment, flags: RST | ACK, ..Segment::reset(from, to) })
    }

    /// Its bytes, from the first of the IPv4 header on.
    pub fn bytes(&self) -> [u8; LENGTH] {
        let (source, destination) = (self.from.ip(), self.to.ip());
        let mut bytes = [0; LENGTH];
        let (header, segment) = bytes.split_at_mut(HEADER);
        header[0] = 0x45;
        header[2..4].copy_from_slice(&(LENGTH as u16).to_be_bytes());
        header[6..8].copy_from_slice(&DO_NOT_FRAGMENT.to_be_bytes());
        header[8..10].copy_from_slice(&[TIME_TO_LIVE, Protocol::Tcp as u8]);
        header[12..16].copy_from_slice(&source.octets());
        header[16..20].copy_from_slice(&destination.octets());
        let checksum = !sum(header, 0);
        header[10..12].copy_from_slice(&checksum.to_be_bytes());
        segment[..2].copy_from_slice(&self.from.port().to_be_bytes());
        segment[2..4].copy_from_slice(&self.to.port().to_be_bytes());
        segment[4..8].copy_from_slice(&self.sequence.to_be_bytes());
        segment[8..12].copy_from_slice(&self.acknowledgment.to_be_bytes());
        segment[12..14].copy_from_slice(&[(HEADER as u8 / 4) << 4, self.flags]);
        let checksum = !sum(segment, pseudo_header(*source, *destination, HEADER));
        segment[16..18].copy_from_slice(&checksum.to_be_bytes());
        bytes
    }
}

/// Not one that means nobody, or many.
fn is_of_a_host(address: Ipv4Addr) -> bool {
    let is_none = address.is_unspecified() || address.is_loopback();
    !(is_none || address.is_broadcast() || address.is_multicast())
}

fn is_tcp_with_right_checksum(packet: &Packet<'_>) -> bool {
    let first = pseudo_header(packet.source, packet.destination, packet.payload.len());
    packet.protocol == Protocol::Tcp as u8 && sum(packet.payload, first) == 0xFFFF
}

/// The sum of what TCP's checksum covers beside the segment.
fn pseudo_header(source: Ipv4Addr, destination: Ipv4Addr, length: usize) -> u32 {
    let words = [source, destination].map(|address| u32::from(sum(&address.octets(), 0)));
    words.iter().sum::<u32>() + Protocol::Tcp as u32 + length as u32
}

/// RFC 1071's sum of 16-bit words, each carry added back; it begins at `first`. A packet's words can't overflow it.
fn sum(bytes: &[u8], first: u32) -> u16 {
    let words = bytes.chunks(2).map(|pair| match *pair {
        [high, low] => u32::from(u16::from_be_bytes([high, low])),
        [high, ..] => u32::from(high) << 8,
        [] => 0,
    });
    let sum = words.fold(first, |sum, word| sum + word);
    let folded = (sum >> 16) + (sum & 0xFFFF);
    ((folded >> 16) + folded) as u16
}
