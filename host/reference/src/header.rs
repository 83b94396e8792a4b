//! The IP header (RFC 791): refusals 6, 20, 7 and 8.

use crate::checksum;
use crate::refusal;

/// What the director reads of an IP header. Lengths are in bytes.
#[derive(Clone, Copy, Debug, PartialEq, Eq)]
pub struct Header {
    pub length: usize,
    pub total: usize,
    pub source: u32,
    pub destination: u32,
}

pub const SHORTEST: usize = 20;
pub const CHECKSUM_AT: usize = 10;
pub const SOURCE_AT: usize = 12;
pub const DESTINATION_AT: usize = 16;

pub fn word(bytes: &[u8], at: usize) -> u16 {
    u16::from_be_bytes([bytes[at], bytes[at + 1]])
}

pub fn address(bytes: &[u8], at: usize) -> u32 {
    u32::from(word(bytes, at)) << 16 | u32::from(word(bytes, at + 2))
}

/// Refusals 6, 20, 7, 8 in their order.
pub fn read(packet: &[u8], protocol: u8) -> Result<Header, u8> {
    let header = read_lengths(packet).ok_or(refusal::HEADER)?;
    // 20: "header checksum not valid"
    if !checksum::is_valid(&packet[..header.length]) {
        return Err(refusal::HEADER_CHECKSUM);
    }
    if is_fragment(packet) {
        return Err(refusal::FRAGMENT);
    }
    if packet[9] != protocol {
        return Err(refusal::PROTOCOL);
    }
    Ok(header)
}

/// 6: "packet under 20 bytes; version not 4; header length word under 5; total length below
/// header length or above the bytes given"
fn read_lengths(packet: &[u8]) -> Option<Header> {
    if packet.len() < SHORTEST || packet[0] >> 4 != 4 {
        return None;
    }
    let length = usize::from(packet[0] & 0x0F) * 4;
    let total = usize::from(word(packet, 2));
    if length < SHORTEST || total < length || total > packet.len() {
        return None;
    }
    Some(Header {
        length,
        total,
        source: address(packet, SOURCE_AT),
        destination: address(packet, DESTINATION_AT),
    })
}

/// 7: "more-fragments set, or fragment offset not 0" (the other two flags aren't judged)
fn is_fragment(packet: &[u8]) -> bool {
    word(packet, 6) & 0x3FFF != 0
}
