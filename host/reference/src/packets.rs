//! For tests: builders of TCP and UDP packets with options, trailing bytes, given checksums.

use crate::data::{TCP, UDP};

/// TCP flag bits.
pub const FIN: u8 = 0x01;
pub const SYN: u8 = 0x02;
pub const RST: u8 = 0x04;
pub const PSH: u8 = 0x08;
pub const ACK: u8 = 0x10;

/// An address and a port.
pub type End = (u32, u16);

/// What goes into a checksum field.
#[derive(Clone, Copy, Debug, PartialEq, Eq)]
pub enum Sum {
    /// The right one (UDP: never 0).
    Right,
    /// The given one.
    Given(u16),
}

/// All that makes up a packet. Fields left None are derived.
#[derive(Clone, Debug)]
pub struct Plan {
    pub protocol: u8,
    pub source: End,
    pub destination: End,
    /// TCP flag bits.
    pub flags: u8,
    /// IP options, padded to whole words, at most 40 bytes.
    pub ip_options: Vec<u8>,
    /// TCP options, padded to whole words, at most 40 bytes; UDP has none.
    pub tcp_options: Vec<u8>,
    pub data: Vec<u8>,
    /// Bytes past the total length.
    pub trailing: Vec<u8>,
    /// The word of flags and fragment offset.
    pub fragment: u16,
    pub header_sum: Sum,
    pub transport_sum: Sum,
    pub version: Option<u8>,
    pub header_words: Option<u8>,
    pub total_length: Option<u16>,
    /// The protocol number written, where it differs from the form.
    pub written_protocol: Option<u8>,
    pub data_offset: Option<u8>,
    pub udp_length: Option<u16>,
}

/// A plain TCP packet.
pub fn tcp(source: End, destination: End, flags: u8) -> Plan {
    plan(TCP, source, destination, flags)
}

/// A plain UDP packet.
pub fn udp(source: End, destination: End) -> Plan {
    plan(UDP, source, destination, 0)
}

fn plan(protocol: u8, source: End, destination: End, flags: u8) -> Plan {
    Plan {
        protocol,
        source,
        destination,
        flags,
        ip_options: Vec::new(),
        tcp_options: Vec::new(),
        data: Vec::new(),
        trailing: Vec::new(),
        fragment: 0x4000,
        header_sum: Sum::Right,
        transport_sum: Sum::Right,
        version: None,
        header_words: None,
        total_length: None,
        written_protocol: None,
        data_offset: None,
        udp_length: None,
    }
}

impl Plan {
    /// The same with options, data of an odd length and bytes past the total length.
    pub fn with_options_and_data(self) -> Plan {
        Plan {
            ip_options: vec![1, 1, 7, 3, 9],
            tcp_options: vec![2, 4, 5, 0xB4],
            data: vec![0xFE; 13],
            trailing: vec![0x55; 9],
            ..self
        }
    }

    /// The bytes.
    pub fn build(&self) -> Vec<u8> {
        let mut payload = match self.protocol {
            UDP => self.udp_payload(),
            _ => self.tcp_payload(),
        };
        self.put_transport_sum(&mut payload);
        let mut bytes = self.header(payload.len());
        bytes.extend(payload);
        bytes.extend(&self.trailing);
        bytes
    }

    fn header(&self, payload: usize) -> Vec<u8> {
        let options = padded(&self.ip_options);
        let length = 20 + options.len();
        let words = self.header_words.unwrap_or((length / 4) as u8);
        let total = self.total_length.unwrap_or((length + payload) as u16);
        let mut bytes = vec![self.version.unwrap_or(4) << 4 | (words & 0x0F), 0];
        bytes.extend(total.to_be_bytes());
        bytes.extend([0x12, 0x34]);
        bytes.extend(self.fragment.to_be_bytes());
        bytes.extend([64, self.written_protocol.unwrap_or(self.protocol), 0, 0]);
        bytes.extend(self.source.0.to_be_bytes());
        bytes.extend(self.destination.0.to_be_bytes());
        bytes.extend(options);
        let sum = match self.header_sum {
            Sum::Right => !add_up(&bytes, 0),
            Sum::Given(given) => given,
        };
        bytes[10..12].copy_from_slice(&sum.to_be_bytes());
        bytes
    }

    fn tcp_payload(&self) -> Vec<u8> {
        let options = padded(&self.tcp_options);
        let offset = self.data_offset.unwrap_or((5 + options.len() / 4) as u8);
        let mut bytes = Vec::new();
        bytes.extend(self.source.1.to_be_bytes());
        bytes.extend(self.destination.1.to_be_bytes());
        bytes.extend([0, 0, 0, 1, 0, 0, 0, 2]);
        bytes.extend([offset << 4, self.flags, 0x20, 0, 0, 0, 0, 0]);
        bytes.extend(options);
        bytes.extend(&self.data);
        bytes
    }

    fn udp_payload(&self) -> Vec<u8> {
        let length = self.udp_length.unwrap_or((8 + self.data.len()) as u16);
        let mut bytes = Vec::new();
        bytes.extend(self.source.1.to_be_bytes());
        bytes.extend(self.destination.1.to_be_bytes());
        bytes.extend(length.to_be_bytes());
        bytes.extend([0, 0]);
        bytes.extend(&self.data);
        bytes
    }

    fn put_transport_sum(&self, payload: &mut [u8]) {
        let at = match self.protocol {
            UDP => 6,
            _ => 16,
        };
        let pseudo = pseudo_sum(self.source.0, self.destination.0, self.protocol, payload.len());
        let sum = match (self.transport_sum, !add_up(payload, pseudo)) {
            (Sum::Given(given), _) => given,
            (Sum::Right, 0) if self.protocol == UDP => 0xFFFF,
            (Sum::Right, right) => right,
        };
        payload[at..at + 2].copy_from_slice(&sum.to_be_bytes());
    }
}

/// Whether the transport checksum of a well-formed packet verifies, pseudo header and all.
pub fn transport_verifies(packet: &[u8]) -> bool {
    let length = usize::from(packet[0] & 15) * 4;
    let total = usize::from(packet[2]) << 8 | usize::from(packet[3]);
    let source = u32::from_be_bytes([packet[12], packet[13], packet[14], packet[15]]);
    let destination = u32::from_be_bytes([packet[16], packet[17], packet[18], packet[19]]);
    let payload = &packet[length..total];
    add_up(payload, pseudo_sum(source, destination, packet[9], payload.len())) == 0xFFFF
}

/// Whether the IP header's checksum verifies.
pub fn header_verifies(packet: &[u8]) -> bool {
    add_up(&packet[..usize::from(packet[0] & 15) * 4], 0) == 0xFFFF
}

/// Writes the right header checksum into bytes that were changed by hand; any bytes are taken.
pub fn mend_header(packet: &mut [u8]) {
    if packet.len() < 20 {
        return;
    }
    let length = (usize::from(packet[0] & 15) * 4).min(packet.len());
    packet[10..12].fill(0);
    let sum = !add_up(&packet[..length], 0);
    packet[10..12].copy_from_slice(&sum.to_be_bytes());
}

/// Writes a header checksum that doesn't verify: the right one with a bit of its 16 turned, 0 the highest.
pub fn spoil_header(packet: &mut [u8], bit: usize) {
    mend_header(packet);
    if let Some(byte) = packet.get_mut(10 + bit / 8) {
        *byte ^= 0x80 >> (bit % 8);
    }
}

/// Bytes of a hex text; spaces are passed over.
pub fn bytes_of(hex: &str) -> Vec<u8> {
    let digits: Vec<u8> = hex.chars().filter_map(|c| c.to_digit(16)).map(|d| d as u8).collect();
    digits.chunks(2).map(|pair| pair[0] << 4 | pair[1]).collect()
}

fn pseudo_sum(source: u32, destination: u32, protocol: u8, length: usize) -> u32 {
    let words = [source >> 16, source & 0xFFFF, destination >> 16, destination & 0xFFFF];
    words.iter().sum::<u32>() + u32::from(protocol) + length as u32
}

/// The one's complement sum of bytes and a first sum.
fn add_up(bytes: &[u8], first: u32) -> u16 {
    let mut sum = first;
    for (at, &byte) in bytes.iter().enumerate() {
        sum += if at % 2 == 0 { u32::from(byte) << 8 } else { u32::from(byte) };
    }
    sum = (sum & 0xFFFF) + (sum >> 16);
    sum = (sum & 0xFFFF) + (sum >> 16);
    sum as u16
}

fn padded(options: &[u8]) -> Vec<u8> {
    let mut bytes = options.to_vec();
    bytes.resize(options.len().div_ceil(4) * 4, 0);
    bytes
}
