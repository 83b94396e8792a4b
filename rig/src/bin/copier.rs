//! Sends on what a TUN device gives, and nothing else: the limit of any director on such a device. The ends are fixed: a packet to
//! the virtual address goes to a replica by its client's port, any other comes from the virtual end. There is no table, and nothing
//! is looked at but what is rewritten. Prints `ready: ` when the device is there; a signal ends it.

use live::system;
use reference::checksum::{edit_address, edit_endpoint};
use reference::header::{address, word};
use std::fs::{File, OpenOptions};
use std::io::{self, Read, Write};
use std::net::SocketAddrV4;
use std::process::ExitCode;

const USAGE: &str = "usage: copier DEVICE VIRTUAL_ADDRESS:PORT REPLICA_ADDRESS:PORT..";

/// Where things are in an IPv4 packet whose header has no options, with TCP in it.
const HEADER_CHECKSUM: usize = 10;
const SOURCE: Place = Place { address: 12, port: 20 };
const DESTINATION: Place = Place { address: 16, port: 22 };
const TCP_CHECKSUM: usize = 36;
const SHORTEST: usize = 40;

/// An address with its port.
type End = (u32, u16);

/// Where an end stands in a packet.
struct Place {
    address: usize,
    port: usize,
}

impl Place {
    fn read(&self, packet: &[u8]) -> End {
        (address(packet, self.address), word(packet, self.port))
    }

    /// Sets the end, and edits both checksums.
    fn set(&self, packet: &mut [u8], new: End) {
        let old = self.read(packet);
        let header = edit_address(word(packet, HEADER_CHECKSUM), old.0, new.0);
        let transport = edit_endpoint(word(packet, TCP_CHECKSUM), old, new);
        packet[HEADER_CHECKSUM..][..2].copy_from_slice(&header.to_be_bytes());
        packet[TCP_CHECKSUM..][..2].copy_from_slice(&transport.to_be_bytes());
        packet[self.address..][..4].copy_from_slice(&new.0.to_be_bytes());
        packet[self.port..][..2].copy_from_slice(&new.1.to_be_bytes());
    }
}

/// The fixed ends.
struct Ends {
    service: End,
    replicas: Vec<End>,
}

impl Ends {
    /// Rewrites a packet; false if its ports and checksums don't stand where the rewriting looks for them.
    fn rewrite(&self, packet: &mut [u8]) -> bool {
        let is_tcp = packet.len() >= SHORTEST && packet[0] == 0x45 && packet[9] == 6;
        if is_tcp && DESTINATION.read(packet).0 == self.service.0 {
            let replica = usize::from(SOURCE.read(packet).1) % self.replicas.len();
            DESTINATION.set(packet, self.replicas[replica]);
        } else if is_tcp {
            SOURCE.set(packet, self.service);
        }
        is_tcp
    }
}

/// Reads the command line: the device and the ends.
fn read_order(arguments: &[String]) -> Option<(&str, Ends)> {
    let [device, service, replicas @ ..] = arguments else { return None };
    let end = |text: &String| {
        let end = text.parse::<SocketAddrV4>().ok()?;
        Some((u32::from(*end.ip()), end.port()))
    };
    let replicas = replicas.iter().map(end).collect::<Option<Vec<End>>>()?;
    let ends = Ends { service: end(service)?, replicas };
    (!ends.replicas.is_empty()).then_some((device, ends))
}

/// The device; its reads wait.
fn open(name: &str) -> io::Result<File> {
    let device = OpenOptions::new().read(true).write(true).open("/dev/net/tun")?;
    system::set_interface(&device, name)?;
    Ok(device)
}

/// One read and one write a packet, until the device is gone.
fn copy(mut device: File, ends: &Ends) -> io::Result<()> {
    let mut buffer = [0; 65536];
    loop {
        let length = device.read(&mut buffer)?;
        let packet = &mut buffer[..length];
        if ends.rewrite(packet) {
            // A packet that the kernel refuses is lost, as on any link.
            let _ = device.write(packet);
        }
    }
}

fn serve(name: &str, ends: &Ends) -> io::Result<()> {
    let device = open(name)?;
    println!("ready: {name} to {} replicas", ends.replicas.len());
    io::stdout().flush()?;
    copy(device, ends)
}

fn main() -> ExitCode {
    let arguments: Vec<String> = std::env::args().skip(1).collect();
    let Some((device, ends)) = read_order(&arguments) else {
        eprintln!("{USAGE}");
        return ExitCode::from(2);
    };
    match serve(device, &ends) {
        Ok(()) => ExitCode::SUCCESS,
        Err(error) => {
            eprintln!("copier: {error}");
            ExitCode::FAILURE
        }
    }
}

#[cfg(test)]
mod tests {
    use super::*;
    use reference::packets::{bytes_of, header_verifies, tcp, transport_verifies};

    const CLIENT: End = (0x0A000001, 40001);

    fn ends() -> Ends {
        let order = ["nid0", "192.0.2.10:5432", "10.1.0.5:6432", "10.2.0.5:6433"].map(String::from);
        let (device, ends) = read_order(&order).unwrap();
        assert_eq!(device, "nid0");
        ends
    }

    /// The whole packet of the rules, P11.
    #[test]
    fn a_clients_packet_goes_to_its_replica() {
        let mut packet = bytes_of(
            "45000028000040004006 6EC50A000001C000020A9C401538000000000000000050020000325F0000",
        );
        assert!(ends().rewrite(&mut packet));
        let want = bytes_of(
            "45000028000040004006 26CA0A0000010A0100059C401920000000000000000050020000E67B0000",
        );
        assert_eq!(packet, want);
    }

    #[test]
    fn the_replica_is_the_ports() {
        let mut packet = tcp(CLIENT, (0xC000020A, 5432), 16).build();
        assert!(ends().rewrite(&mut packet));
        assert_eq!(packet, tcp(CLIENT, (0x0A020005, 6433), 16).build());
    }

    #[test]
    fn what_a_replica_sends_comes_from_the_service() {
        let mut packet = tcp((0x0A020005, 6433), CLIENT, 18).build();
        assert!(ends().rewrite(&mut packet));
        assert_eq!(packet, tcp((0xC000020A, 5432), CLIENT, 18).build());
        assert!(header_verifies(&packet) && transport_verifies(&packet));
    }

    #[test]
    fn anything_else_stays() {
        let packet = tcp(CLIENT, (0xC000020A, 5432), 16).build();
        let changed = |at: usize, byte: u8| {
            let mut packet = packet.clone();
            packet[at] = byte;
            packet
        };
        for mut other in [changed(0, 0x60), changed(0, 0x46), changed(9, 17), packet[..39].into()] {
            let before = other.clone();
            assert!(!ends().rewrite(&mut other));
            assert_eq!(other, before);
        }
    }

    #[test]
    fn an_order_has_a_device_and_ends() {
        for order in [vec![], vec!["nid0"], vec!["nid0", "192.0.2.10:5432"], vec!["nid0", "x", "y"]]
        {
            let order: Vec<String> = order.into_iter().map(String::from).collect();
            assert!(read_order(&order).is_none(), "{order:?}");
        }
    }
}
