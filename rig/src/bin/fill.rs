//! Fills the director's table: clients that don't exist send one SYN each, by a TUN device of their own, and nothing more; or an
//! acknowledgment too, so that they aren't opening any longer. Prints `ready: ` when the device is there, waits until it is up, and ends
//! when all are sent.

use live::tun::Tun;
use reference::packets::{self, ACK, SYN};
use std::net::SocketAddrV4;
use std::process::ExitCode;
use std::time::{Duration, Instant};

const USAGE: &str = "usage: fill DEVICE FIRST_CLIENT:PORT SERVICE:PORT CLIENTS [ADDRESSES [open]]";
/// The clients have few addresses, and many ports each, unless told otherwise.
const ADDRESSES: u32 = 16;
/// So many packets, then a pause: the director's device keeps 500 that are not read yet.
const AT_ONCE: u32 = 50;
const PAUSE: Duration = Duration::from_millis(4);
/// How long it waits for the device to be up.
const PATIENCE: Duration = Duration::from_secs(20);

/// What the command line asks for.
struct Order {
    device: String,
    first: SocketAddrV4,
    service: SocketAddrV4,
    clients: u32,
    addresses: u32,
    /// Whether they acknowledge too.
    open: bool,
}

fn read_order(arguments: &[String]) -> Option<Order> {
    let [device, first, service, clients, addresses @ ..] = arguments else { return None };
    let (device, first, service) = (device.clone(), first.parse().ok()?, service.parse().ok()?);
    let (addresses, open) = match addresses {
        [] => (ADDRESSES, false),
        [addresses] => (addresses.parse().ok()?, false),
        [addresses, open] if open == "open" => (addresses.parse().ok()?, true),
        _ => return None,
    };
    let clients = clients.parse().ok()?;
    (addresses > 0).then_some(Order { device, first, service, clients, addresses, open })
}

/// A segment of that client; each has an address and port that no other has.
fn segment(order: &Order, client: u32, flags: u8) -> Vec<u8> {
    let address = u32::from(*order.first.ip()) + client % order.addresses;
    let port = order.first.port() + (client / order.addresses) as u16;
    let service = (u32::from(*order.service.ip()), order.service.port());
    packets::tcp((address, port), service, flags).build()
}

/// Sends a packet as soon as the device is up.
fn send(device: &Tun, packet: &[u8]) -> Result<(), String> {
    let begin = Instant::now();
    while !device.write(packet) {
        if begin.elapsed() > PATIENCE {
            return Err("the device takes no packet".into());
        }
        std::thread::sleep(PAUSE);
    }
    Ok(())
}

fn fill(order: &Order) -> Result<(), String> {
    let device = Tun::open(&order.device)?;
    println!("ready: {} clients of {}", order.clients, order.service);
    for client in 0..order.clients {
        send(&device, &segment(order, client, SYN))?;
        if order.open {
            send(&device, &segment(order, client, ACK))?;
        }
        if client % AT_ONCE == AT_ONCE - 1 {
            std::thread::sleep(PAUSE);
        }
    }
    Ok(())
}

fn main() -> ExitCode {
    let arguments: Vec<String> = std::env::args().skip(1).collect();
    let Some(order) = read_order(&arguments) else {
        eprintln!("{USAGE}");
        return ExitCode::from(2);
    };
    match fill(&order) {
        Ok(()) => ExitCode::SUCCESS,
        Err(error) => {
            eprintln!("fill: {error}");
            ExitCode::FAILURE
        }
    }
}

#[cfg(test)]
mod tests {
    use super::*;
    use std::collections::HashSet;

    fn order(words: &str) -> Option<Order> {
        read_order(&words.split(' ').map(String::from).collect::<Vec<_>>())
    }

    #[test]
    fn no_two_clients_are_one() {
        let order = order("fill0 10.9.0.1:1024 192.0.2.10:5432 4096").unwrap();
        let clients =
            (0..order.clients).map(|client| segment(&order, client, SYN)[12..22].to_vec());
        assert_eq!(clients.collect::<HashSet<_>>().len(), 4096);
        let first = packets::tcp((0x0A090001, 1024), (0xC000020A, 5432), SYN).build();
        assert_eq!(segment(&order, 0, SYN), first);
    }

    #[test]
    fn they_have_as_many_addresses_as_told() {
        let order_of = |addresses: &str| {
            order(&format!("fill0 10.9.0.1:1024 192.0.2.10:5432 600 {addresses}"))
        };
        let order = order_of("300").unwrap();
        let addresses =
            (0..order.clients).map(|client| segment(&order, client, SYN)[12..16].to_vec());
        assert_eq!(addresses.collect::<HashSet<_>>().len(), 300);
        assert!(order_of("0").is_none() && order_of("many").is_none() && order_of("3 4").is_none());
        assert!(!order.open && order_of("300 open").unwrap().open);
    }
}
