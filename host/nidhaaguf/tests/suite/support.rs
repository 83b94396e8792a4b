//! A service to try, and a packet for it.

use nidhaaguf::{Protocol, Scheduler, Settings};

/// From 10.0.0.1:40000 to the service.
pub const SYN: [u8; 40] = [
    0x45, 0x00, 0x00, 0x28, 0x00, 0x00, 0x40, 0x00, 0x40, 0x06, 0x6E, 0xC5, 10, 0, 0, 1, 192, 0, 2,
    10, 0x9C, 0x40, 0x15, 0x38, 0, 0, 0, 0, 0, 0, 0, 0, 0x50, 0x02, 0x00, 0x00, 0x32, 0x5F, 0, 0,
];

pub fn settings(servers: u16) -> Settings {
    let service = "192.0.2.10:5432".parse().unwrap();
    let empty = Settings::new(service, Protocol::Tcp, Scheduler::RoundRobin);
    (0..servers).fold(empty, |settings, number| {
        settings.server(format!("10.1.0.5:{}", 6432 + number).parse().unwrap(), 1)
    })
}

/// The SYN of another client, by its port.
pub fn syn_from(port: u16) -> [u8; 40] {
    let mut packet = SYN;
    packet[20..22].copy_from_slice(&port.to_be_bytes());
    packet
}

/// The same packet the other way: from its destination to its source.
pub fn turned(packet: [u8; 40]) -> [u8; 40] {
    let mut back = packet;
    back[12..16].copy_from_slice(&packet[16..20]);
    back[16..20].copy_from_slice(&packet[12..16]);
    back[20..22].copy_from_slice(&packet[22..24]);
    back[22..24].copy_from_slice(&packet[20..22]);
    back
}
