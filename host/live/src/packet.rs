//! What the program itself reads of a packet: addresses, ports and TCP's header. Any bytes may be given.

use nidhaaguf::Protocol;
use std::net::{Ipv4Addr, SocketAddrV4};

/// TCP flag bits.
pub const FIN: u8 = 0x01;
/// The client's first segment has it, and the server's.
pub const SYN: u8 = 0x02;
/// The connection is at its end.
pub const RST: u8 = 0x04;
/// The acknowledgment number counts.
pub const ACK: u8 = 0x10;

/// The shortest IPv4 header.
const HEADER: usize = 20;

/// A packet of IPv4.
#[derive(Clone, Copy, Debug, PartialEq, Eq)]
pub struct Packet<'a> {
    /// Its source address.
    pub source: Ipv4Addr,
    /// Its destination address.
    pub destination: Ipv4Addr,
    /// The number of its protocol.
    pub protocol: u8,
    /// What follows its header, up to its total length.
    pub payload: &'a [u8],
}

impl<'a> Packet<'a> {
    /// Reads a packet; None where its header isn't IPv4's, or its lengths are wrong.
    pub fn read(bytes: &'a [u8]) -> Option<Packet<'a>> {
        let header = bytes.first_chunk::<HEADER>()?;
        let [version_and_length, _, high, low, ..] = *header;
        let begin = usize::from(version_and_length & 0x0F) * 4;
        if version_and_length >> 4 != 4 || begin < HEADER {
            return None;
        }
        let payload = bytes.get(begin..usize::from(u16::from_be_bytes([high, low])))?;
        let [.., a, b, c, d, e, f, g, h] = *header;
        let (source, destination) = (Ipv4Addr::new(a, b, c, d), Ipv4Addr::new(e, f, g, h));
        Some(Packet { source, destination, protocol: header[9], payload })
    }

    /// Where it comes from: of TCP and UDP the port comes first.
    pub fn sender(&self) -> Option<SocketAddrV4> {
        let port = u16::from_be_bytes(*self.payload.first_chunk()?);
        Some(SocketAddrV4::new(self.source, port))
    }

    /// Where it goes to.
    pub fn receiver(&self) -> Option<SocketAddrV4> {
        let port = u16::from_be_bytes(*self.payload.get(2..)?.first_chunk()?);
        Some(SocketAddrV4::new(self.destination, port))
    }

    /// TCP's flags; None where it isn't TCP.
    pub fn flags(&self) -> Option<u8> {
        let flags = *self.payload.get(13)?;
        (self.protocol == Protocol::Tcp as u8).then_some(flags)
    }
}

/// Whether TCP's flags are those of a client's first segment.
pub fn is_opening(flags: u8) -> bool {
    flags & (SYN | ACK | RST | FIN) == SYN
}
