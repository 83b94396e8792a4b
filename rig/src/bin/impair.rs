//! Impairs a link: reads packets from a TUN device, loses, duplicates and reorders some, and writes the others back to it, so that
//! the kernel routes them on. For kernels without netem. Prints `ready: ` when the device is there, and its counts at SIGTERM.

use live::system::signals::Signals;
use live::system::{self, Waited};
use live::tun::Tun;
use rig::links::relay::{Rates, Relay};
use std::io::{self, Write};
use std::process::ExitCode;
use std::time::{Duration, Instant};

const USAGE: &str = "usage: impair --device NAME --seed N --loss N --duplicate N --reorder N (the last three in a thousand)";

/// What the command line asks for.
struct Order {
    device: String,
    seed: u64,
    rates: Rates,
}

/// Reads the command line: every flag once, in any order.
fn read_order(arguments: &[String]) -> Result<Order, String> {
    let value = |flag: &str| {
        let place = arguments
            .iter()
            .position(|argument| argument == flag)
            .ok_or(format!("{flag} is missing"))?;
        arguments.get(place + 1).ok_or(format!("{flag} needs a value"))
    };
    let number =
        |flag: &str| value(flag)?.parse::<u64>().map_err(|_| format!("{flag} needs a number"));
    if arguments.len() != 10 {
        return Err("five flags with a value each were expected".into());
    }
    let rates = Rates {
        loss: number("--loss")?,
        duplicate: number("--duplicate")?,
        reorder: number("--reorder")?,
    };
    if [rates.loss, rates.duplicate, rates.reorder].iter().any(|&rate| rate > 1000)
        || rates.loss + rates.duplicate + rates.reorder > 1000
    {
        return Err("--loss, --duplicate and --reorder are together at most 1000".into());
    }
    let device = value("--device")?.clone();
    if device.is_empty() || device.len() > 15 {
        return Err("--device needs a name of 1 to 15 bytes".into());
    }
    Ok(Order { device, seed: number("--seed")?, rates })
}

/// Waits until the device has a packet, the end has come, or the relay has to let a held packet go. Tells the first two.
fn wait(device: &Tun, ending: &Signals, until: Option<Instant>) -> Result<(bool, bool), String> {
    let mut files = [Waited::new(device, true, false), Waited::new(ending, true, false)];
    let left = until.map_or(Duration::MAX, |until| until.saturating_duration_since(Instant::now()));
    system::wait(&mut files, left).map_err(|error| format!("waiting failed: {error}"))?;
    Ok((files[0].is_ready(), files[1].is_ready()))
}

/// Relays packets until a signal ends it.
fn relay_packets(relay: &mut Relay, device: &Tun, ending: &Signals) -> Result<(), String> {
    let mut buffer = [0; 65536];
    // A packet that the kernel refuses is one more lost on the link.
    let mut send = |packet: &[u8]| {
        if !device.write(packet) {
            eprintln!("impair: the device did not take a packet of {} bytes", packet.len());
        }
    };
    loop {
        let (packet_there, ended) = wait(device, ending, relay.next_release())?;
        if ended {
            relay.release_all(&mut send);
            return Ok(());
        }
        if packet_there {
            let length = device.read(&mut buffer)?.unwrap_or(0);
            // The kernel also sends IPv6 packets of its own to a new device; they are no traffic of the link.
            if length > 0 && buffer[0] >> 4 == 4 {
                relay.take(&buffer[..length], Instant::now(), &mut send);
            }
        }
        relay.release(Instant::now(), &mut send);
    }
}

fn serve(order: Order) -> Result<(), String> {
    let failed = |error: io::Error| error.to_string();
    let ending = Signals::take().map_err(failed)?;
    let device = Tun::open(&order.device)?;
    println!(
        "ready: {} loses {}, duplicates {} and reorders {} packets in a thousand, seed {}",
        order.device, order.rates.loss, order.rates.duplicate, order.rates.reorder, order.seed
    );
    io::stdout().flush().map_err(failed)?;
    let mut relay = Relay::new(order.seed, order.rates);
    relay_packets(&mut relay, &device, &ending)?;
    println!("{}", relay.counts());
    Ok(())
}

fn main() -> ExitCode {
    let arguments: Vec<String> = std::env::args().skip(1).collect();
    let order = match read_order(&arguments) {
        Ok(order) => order,
        Err(wrong) => {
            eprintln!("impair: {wrong}\n{USAGE}");
            return ExitCode::from(2);
        }
    };
    match serve(order) {
        Ok(()) => ExitCode::SUCCESS,
        Err(error) => {
            eprintln!("impair: {error}");
            ExitCode::FAILURE
        }
    }
}
