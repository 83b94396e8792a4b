//! A TCP packet as tcpdump tells it, from a file that it captured.

use crate::lab::network::{balanced, SERVER_PORT, VIRTUAL, VIRTUAL_PORT};
use crate::lab::{output, Failure};
use programs::TCPDUMP;
use std::fmt;
use std::hash::{Hash, Hasher};
use std::path::Path;

/// A packet. Two are equal when they are the same but for where and when they were seen: the kernel lowers a packet's
/// time to live on its way, and nothing else.
#[derive(Clone, Debug)]
pub struct Packet {
    /// When it was seen, in seconds since 1970.
    pub time: f64,
    /// The sender's address and port, joined by a dot.
    pub source: String,
    /// The receiver's address and port, joined by a dot.
    pub destination: String,
    /// TCP's flags, in tcpdump's letters: S for SYN, F for FIN, R for RST and a dot for ACK.
    pub flags: String,
    /// Sequence numbers, window, options and length, in tcpdump's words.
    pub content: String,
    identification: String,
    sum: String,
    header_is_right: bool,
}

impl PartialEq for Packet {
    fn eq(&self, other: &Packet) -> bool {
        self.key() == other.key()
    }
}

impl Eq for Packet {}

impl Hash for Packet {
    fn hash<H: Hasher>(&self, state: &mut H) {
        self.key().hash(state);
    }
}

impl fmt::Display for Packet {
    fn fmt(&self, out: &mut fmt::Formatter<'_>) -> fmt::Result {
        let Packet { source, destination, flags, content, sum, .. } = self;
        let header = if self.header_is_right { "" } else { "bad IPv4 header checksum, " };
        write!(out, "{source} > {destination}: {header}flags [{flags}], cksum {sum}, {content}")
    }
}

impl Packet {
    fn key(&self) -> [&str; 6] {
        let Packet { source, destination, flags, content, identification, sum, .. } = self;
        [source, destination, flags, content, identification, sum]
    }

    /// Whether both the IPv4 header's checksum and TCP's are right.
    pub fn sums_are_right(&self) -> bool {
        self.header_is_right && self.sum.ends_with(" (correct)")
    }

    /// Whether it is one that the director writes, and not one that it is handed.
    pub fn is_written(&self) -> bool {
        self.source == format!("{VIRTUAL}.{VIRTUAL_PORT}") || server_of(&self.destination).is_some()
    }

    /// The client's end of it.
    pub fn client(&self) -> &str {
        let outbound = self.source == format!("{VIRTUAL}.{VIRTUAL_PORT}");
        match outbound || server_of(&self.source).is_some() {
            true => &self.destination,
            false => &self.source,
        }
    }

    /// Its sequence number; a bare acknowledgment is told without.
    pub fn sequence(&self) -> Option<u32> {
        number_after(&self.content, "seq ")
    }

    /// Its acknowledgment number.
    pub fn acknowledgment(&self) -> Option<u32> {
        number_after(&self.content, "ack ")
    }

    /// How many bytes of data it carries.
    pub fn length(&self) -> Option<u32> {
        number_after(&self.content, "length ")
    }

    /// Whether it goes from where the other came from, and back.
    pub fn is_answer_to(&self, other: &Packet) -> bool {
        (&self.source, &self.destination) == (&other.destination, &other.source)
    }

    /// Whether the other is this packet with other addresses and ports: what the director makes of it.
    pub fn is_rewritten_as(&self, other: &Packet) -> bool {
        (&self.identification, &self.flags, &self.content)
            == (&other.identification, &other.flags, &other.content)
    }
}

/// The number that stands behind a word of tcpdump's.
fn number_after(content: &str, word: &str) -> Option<u32> {
    let (_, rest) = content.split_once(word)?;
    rest.split(|letter: char| !letter.is_ascii_digit()).next()?.parse().ok()
}

/// The number of the server whose balanced address and port that is.
pub fn server_of(end: &str) -> Option<usize> {
    (0..64).find(|&k| {
        end.strip_prefix(&balanced(k)).and_then(|rest| rest.strip_prefix('.')) == Some(SERVER_PORT)
    })
}

/// Reads the packets of a file that tcpdump wrote.
pub fn read(file: &Path) -> Result<Vec<Packet>, Failure> {
    // Sequence numbers as they are: relative ones would depend on what else is in the file.
    let text = output(TCPDUMP.command().args(["-n", "-v", "-tt", "-S", "-r"]).arg(file))?;
    let mut lines = text.lines();
    let mut packets = Vec::new();
    while let (Some(header), Some(segment)) = (lines.next(), lines.next()) {
        let strange = || Failure(format!("tcpdump said of {}: {header} {segment}", file.display()));
        packets.push(parse(header, segment).ok_or_else(strange)?);
    }
    Ok(packets)
}

/// Reads the two lines that tcpdump prints for a packet; none where they are something else.
pub fn parse(header: &str, segment: &str) -> Option<Packet> {
    let (time, header) = header.split_once(" IP (")?;
    let (_, identification) = header.split_once(", id ")?;
    let (identification, _) = identification.split_once(',')?;
    let (ends, rest) = segment.trim().split_once(": Flags [")?;
    let (source, destination) = ends.split_once(" > ")?;
    let (flags, rest) = rest.split_once("], cksum ")?;
    let (sum, content) = rest.split_once("), ")?;
    Some(Packet {
        time: time.parse().ok()?,
        source: source.into(),
        destination: destination.into(),
        flags: flags.into(),
        content: content.into(),
        identification: identification.into(),
        sum: format!("{sum})"),
        header_is_right: !header.contains("bad cksum"),
    })
}

#[cfg(test)]
mod tests {
    use super::*;

    const HEADER: &str = "1794773416.583995 IP (tos 0x0, ttl 60, id 31763, offset 0, flags [DF], proto TCP (6), length 60)";
    const SEGMENT: &str = "    192.0.2.10.5432 > 10.0.0.1.60712: Flags [S.], cksum 0x0866 (correct), seq 4079236795, ack \
                           1738028477, win 65160, options [mss 1460,sackOK,TS val 2638741490 ecr 3676582653], length 0";

    #[test]
    fn a_packet_is_read() {
        let packet = parse(HEADER, SEGMENT).unwrap();
        assert_eq!(
            (packet.source.as_str(), packet.destination.as_str()),
            ("192.0.2.10.5432", "10.0.0.1.60712")
        );
        assert_eq!((packet.flags.as_str(), packet.time), ("S.", 1794773416.583995));
        assert!(packet.sums_are_right() && packet.is_written());
    }

    #[test]
    fn wrong_checksums_are_told() {
        let header = HEADER.replace("length 60)", "length 60, bad cksum 26ca (->25cb)!)");
        assert!(!parse(&header, SEGMENT).unwrap().sums_are_right());
        let segment = SEGMENT.replace("(correct)", "(incorrect -> 0x1234)");
        assert!(!parse(HEADER, &segment).unwrap().sums_are_right());
    }

    #[test]
    fn the_same_packet_is_known_by_all_but_its_time_to_live() {
        let packet = parse(HEADER, SEGMENT).unwrap();
        assert_eq!(packet, parse(&HEADER.replace("ttl 60", "ttl 59"), SEGMENT).unwrap());
        assert_ne!(packet, parse(HEADER, &SEGMENT.replace("0x0866", "0x0867")).unwrap());
        let handed =
            SEGMENT.replace("192.0.2.10.5432", "10.1.0.5.6432").replace("0x0866", "0xbc82");
        let handed = parse(HEADER, &handed).unwrap();
        assert!(handed.is_rewritten_as(&packet) && !handed.is_written() && handed != packet);
    }

    #[test]
    fn numbers_of_a_segment_are_read() {
        let packet = parse(HEADER, SEGMENT).unwrap();
        let numbers = [packet.sequence(), packet.acknowledgment(), packet.length()];
        assert_eq!(numbers, [Some(4079236795), Some(1738028477), Some(0)]);
        let data =
            SEGMENT.replace("seq 4079236795,", "seq 7:19,").replace("length 0", "length 12: data");
        let data = parse(HEADER, &data).unwrap();
        assert_eq!([data.sequence(), data.length()], [Some(7), Some(12)]);
    }

    #[test]
    fn servers_are_known_by_address_and_port() {
        let found =
            ["10.1.0.5.6432", "10.64.0.5.6432", "10.1.0.6.6432", "10.1.0.5.5432"].map(server_of);
        assert_eq!(found, [Some(0), Some(63), None, None]);
    }
}
