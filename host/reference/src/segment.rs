//! The transport header (RFC 9293, RFC 768): refusal 9, ports and flags.

use crate::data::UDP;
use crate::header::word;
use crate::refusal;

/// The TCP flags that matter here.
#[derive(Clone, Copy, Debug, Default, PartialEq, Eq)]
pub struct Flags {
    pub fin: bool,
    pub syn: bool,
    pub rst: bool,
    pub ack: bool,
}

/// What the director reads of a TCP segment or UDP datagram.
#[derive(Clone, Copy, Debug, PartialEq, Eq)]
pub struct Segment {
    pub source: u16,
    pub destination: u16,
    /// None for UDP.
    pub flags: Option<Flags>,
}

pub const SOURCE_AT: usize = 0;
pub const DESTINATION_AT: usize = 2;
pub const TCP_SHORTEST: usize = 20;
pub const TCP_CHECKSUM_AT: usize = 16;
pub const UDP_SHORTEST: usize = 8;
pub const UDP_CHECKSUM_AT: usize = 6;

/// Reads the payload: exactly total length less header length bytes.
pub fn read(payload: &[u8], protocol: u8) -> Result<Segment, u8> {
    let flags = match protocol {
        UDP => read_udp(payload)?,
        _ => read_tcp(payload)?,
    };
    Ok(Segment {
        source: word(payload, SOURCE_AT),
        destination: word(payload, DESTINATION_AT),
        flags,
    })
}

/// 9: "TCP: payload under 20 bytes, data offset under 5 words or past the payload."
fn read_tcp(payload: &[u8]) -> Result<Option<Flags>, u8> {
    if payload.len() < TCP_SHORTEST {
        return Err(refusal::SEGMENT);
    }
    let offset = usize::from(payload[12] >> 4) * 4;
    if offset < TCP_SHORTEST || offset > payload.len() {
        return Err(refusal::SEGMENT);
    }
    let bits = payload[13];
    Ok(Some(Flags {
        fin: bits & 0x01 != 0,
        syn: bits & 0x02 != 0,
        rst: bits & 0x04 != 0,
        ack: bits & 0x10 != 0,
    }))
}

/// 9: "UDP: payload under 8, or UDP length not the payload length"
fn read_udp(payload: &[u8]) -> Result<Option<Flags>, u8> {
    if payload.len() < UDP_SHORTEST || usize::from(word(payload, 4)) != payload.len() {
        return Err(refusal::SEGMENT);
    }
    Ok(None)
}
