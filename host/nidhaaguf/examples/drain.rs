//! Taking a server away without breaking its connections: weight 0, wait, and the count says when it is empty.
//!
//!     cargo run --release --example drain

use nidhaaguf::{Director, Protocol, Refusal, Scheduler, Settings};
use std::net::{Ipv4Addr, SocketAddrV4};

const FIN_ACK: u8 = 0x11;
const SYN: u8 = 0x02;
const SERVICE: SocketAddrV4 = SocketAddrV4::new(Ipv4Addr::new(192, 0, 2, 10), 5432);
const SERVERS: [SocketAddrV4; 2] = [
    SocketAddrV4::new(Ipv4Addr::new(10, 1, 0, 5), 6432),
    SocketAddrV4::new(Ipv4Addr::new(10, 1, 0, 6), 6432),
];

fn main() -> Result<(), Refusal> {
    let settings = Settings::new(SERVICE, Protocol::Tcp, Scheduler::RoundRobin)
        .server(SERVERS[0], 1)
        .server(SERVERS[1], 1);
    let mut director = Director::set_up(&settings, 64)?;

    for number in 1..=4 {
        let passed = director.inbound(&mut segment(client(number), SERVICE, SYN), 0)?;
        println!("  0 s: client {number} opens: server {}", passed.server);
    }

    director.set_weight(0, 0)?;
    println!("  1 s: server 0 is to go: weight 0, {} connections", director.count(0)?);
    let passed = director.inbound(&mut segment(client(5), SERVICE, SYN), 1)?;
    println!("  1 s: client 5 opens: server {}", passed.server);

    // client 1 and its server finish; client 3 is never heard of again
    director.inbound(&mut segment(client(1), SERVICE, FIN_ACK), 10)?;
    director.outbound(&mut segment(SERVERS[0], client(1), FIN_ACK), 10)?;
    println!(" 10 s: client 1 has finished, both ways");

    for clock in 11.. {
        let removed = director.tick(clock)?;
        let left = director.count(0)?;
        if removed > 0 {
            println!("{clock:3} s: {removed} removed as idle, server 0 has {left} left");
        }
        if left == 0 {
            println!("{clock:3} s: server 0 may be taken away");
            break;
        }
    }
    Ok(())
}

fn client(number: u8) -> SocketAddrV4 {
    SocketAddrV4::new(Ipv4Addr::new(10, 0, 0, number), 40_000)
}

/// A TCP packet without data. The director edits its transport checksum and doesn't judge it: 0 will do here.
fn segment(source: SocketAddrV4, destination: SocketAddrV4, flags: u8) -> [u8; 40] {
    let mut packet = [0; 40];
    packet[0] = 0x45;
    packet[3] = 40;
    packet[8..10].copy_from_slice(&[64, 6]);
    packet[12..16].copy_from_slice(&source.ip().octets());
    packet[16..20].copy_from_slice(&destination.ip().octets());
    let sum: u32 =
        packet[..20].chunks(2).map(|pair| u32::from(pair[0]) << 8 | u32::from(pair[1])).sum();
    let checksum = !((sum & 0xFFFF) + (sum >> 16)) as u16;
    packet[10..12].copy_from_slice(&checksum.to_be_bytes());
    packet[20..22].copy_from_slice(&source.port().to_be_bytes());
    packet[22..24].copy_from_slice(&destination.port().to_be_bytes());
    packet[32] = 5 << 4;
    packet[33] = flags;
    packet
}
