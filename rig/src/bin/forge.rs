//! Sends one TCP segment with forged addresses, by a TUN device that is there and up.

use live::segments::Segment;
use live::tun::Tun;
use std::process::ExitCode;

const USAGE: &str =
    "usage: forge DEVICE SOURCE:PORT DESTINATION:PORT reset|acknowledgment SEQUENCE right|wrong
sends a segment of that kind and sequence number, with a right or a wrong checksum";
const RST: u8 = 4;
const ACK: u8 = 16;
/// Where TCP's checksum is, behind an IPv4 header without options.
const CHECKSUM: usize = 20 + 16;

/// What the command line asks for: the device and the packet.
fn read_order(arguments: &[String]) -> Option<(&str, Vec<u8>)> {
    let [device, from, to, kind, sequence, checksum] = arguments else { return None };
    let flags = match kind.as_str() {
        "reset" => RST,
        "acknowledgment" => ACK,
        _ => return None,
    };
    let (from, to, sequence) = (from.parse().ok()?, to.parse().ok()?, sequence.parse().ok()?);
    let mut packet = Segment { from, to, sequence, acknowledgment: 0, flags }.bytes().to_vec();
    match checksum.as_str() {
        "right" => {}
        "wrong" => packet[CHECKSUM] ^= 0xFF,
        _ => return None,
    }
    Some((device, packet))
}

fn main() -> ExitCode {
    let arguments: Vec<String> = std::env::args().skip(1).collect();
    let Some((device, packet)) = read_order(&arguments) else {
        eprintln!("{USAGE}");
        return ExitCode::from(2);
    };
    match Tun::open(device).map(|device| device.write(&packet)) {
        Ok(true) => ExitCode::SUCCESS,
        Ok(false) => {
            eprintln!("forge: the device {device} takes no packet");
            ExitCode::FAILURE
        }
        Err(error) => {
            eprintln!("forge: {error}");
            ExitCode::FAILURE
        }
    }
}

#[cfg(test)]
mod tests {
    use super::*;
    use reference::packets::{header_verifies, transport_verifies};

    fn packet(words: &str) -> Option<Vec<u8>> {
        let words: Vec<String> = words.split(' ').map(String::from).collect();
        read_order(&words).map(|(_, packet)| packet)
    }

    #[test]
    fn only_the_checksum_of_a_wrong_one_is_wrong() {
        let right = packet("forge0 10.0.0.1:40000 192.0.2.10:5432 reset 7 right").unwrap();
        let wrong = packet("forge0 10.0.0.1:40000 192.0.2.10:5432 reset 7 wrong").unwrap();
        assert!(header_verifies(&right) && transport_verifies(&right));
        assert!(header_verifies(&wrong) && !transport_verifies(&wrong));
        assert_eq!((&right[24..28], right[33]), (&[0, 0, 0, 7][..], RST));
    }

    #[test]
    fn anything_else_is_refused() {
        for words in [
            "",
            "forge0 10.0.0.1 192.0.2.10:5432 reset 7 right",
            "forge0 10.0.0.1:1 192.0.2.10:5432 reset 7 maybe",
        ] {
            assert_eq!(packet(words), None, "{words}");
        }
    }
}
