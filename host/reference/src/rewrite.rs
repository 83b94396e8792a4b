//! Rewriting an accepted packet in place.

use crate::checksum;
use crate::data::UDP;
use crate::header::{self, word, Header};
use crate::segment;

/// Which end of the packet is replaced: where its address and port stand.
#[derive(Clone, Copy)]
struct End {
    address_at: usize,
    port_at: usize,
}

/// "Inbound rewriting sets destination address and port to the server's."
pub fn destination(packet: &mut [u8], header: Header, protocol: u8, new: (u32, u16)) {
    let end = End { address_at: header::DESTINATION_AT, port_at: segment::DESTINATION_AT };
    replace(packet, header, protocol, end, new);
}

/// "Outbound sets source address and port to the virtual ones."
pub fn source(packet: &mut [u8], header: Header, protocol: u8, new: (u32, u16)) {
    let end = End { address_at: header::SOURCE_AT, port_at: segment::SOURCE_AT };
    replace(packet, header, protocol, end, new);
}

fn replace(packet: &mut [u8], header: Header, protocol: u8, end: End, new: (u32, u16)) {
    // "Bytes past the total length are neither read nor written."
    let (head, payload) = packet[..header.total].split_at_mut(header.length);
    let old = (header::address(head, end.address_at), word(payload, end.port_at));
    replace_address(head, end.address_at, old.0, new.0);
    replace_port(payload, protocol, end.port_at, old, new);
}

/// "The header checksum is edited over the two address words."
fn replace_address(head: &mut [u8], at: usize, old: u32, new: u32) {
    let edited = checksum::edit_address(word(head, header::CHECKSUM_AT), old, new);
    put_word(head, header::CHECKSUM_AT, edited);
    put_word(head, at, (new >> 16) as u16);
    put_word(head, at + 2, new as u16);
}

/// "the transport checksum over these and the port word"
fn replace_port(payload: &mut [u8], protocol: u8, at: usize, old: (u32, u16), new: (u32, u16)) {
    match protocol {
        UDP => {
            let checksum = word(payload, segment::UDP_CHECKSUM_AT);
            let edited = checksum::edit_udp_endpoint(checksum, old, new);
            put_word(payload, segment::UDP_CHECKSUM_AT, edited);
        }
        _ => {
            let checksum = word(payload, segment::TCP_CHECKSUM_AT);
            let edited = checksum::edit_endpoint(checksum, old, new);
            put_word(payload, segment::TCP_CHECKSUM_AT, edited);
        }
    }
    put_word(payload, at, new.1);
}

fn put_word(bytes: &mut [u8], at: usize, value: u16) {
    bytes[at..at + 2].copy_from_slice(&value.to_be_bytes());
}
