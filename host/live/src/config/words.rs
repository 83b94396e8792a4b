//! Words of the configuration and of commands, read and written.

use nidhaaguf::{Protocol, Scheduler};
use std::net::SocketAddrV4;
use std::ops::RangeInclusive;
use std::str::FromStr;

const SCHEDULERS: [(Scheduler, &str); 4] = [
    (Scheduler::RoundRobin, "round-robin"),
    (Scheduler::WeightedRoundRobin, "weighted-round-robin"),
    (Scheduler::LeastConnection, "least-connection"),
    (Scheduler::WeightedLeastConnection, "weighted-least-connection"),
];

/// A scheduler by name or number.
pub fn scheduler(word: &str) -> Result<Scheduler, String> {
    let fits =
        |scheduler: Scheduler, name: &str| word == name || word == (scheduler as u8).to_string();
    let found = SCHEDULERS.iter().find(|(scheduler, name)| fits(*scheduler, name));
    found.map(|(scheduler, _)| *scheduler).ok_or_else(|| {
        let names = SCHEDULERS.map(|(_, name)| name).join(", ");
        format!("expected a scheduler: {names} or 1 to 4, got {word:?}")
    })
}

/// A scheduler's name.
pub fn scheduler_name(scheduler: Scheduler) -> &'static str {
    SCHEDULERS[scheduler as usize - 1].1
}

/// A protocol by name.
pub fn protocol(word: &str) -> Result<Protocol, String> {
    match word {
        "tcp" => Ok(Protocol::Tcp),
        "udp" => Ok(Protocol::Udp),
        _ => Err(format!("expected a protocol: tcp or udp, got {word:?}")),
    }
}

/// A protocol's name.
pub fn protocol_name(protocol: Protocol) -> &'static str {
    match protocol {
        Protocol::Tcp => "tcp",
        Protocol::Udp => "udp",
    }
}

/// An address and port.
pub fn address(word: &str) -> Result<SocketAddrV4, String> {
    word.parse().map_err(|_| {
        format!("expected an IPv4 address and a port, as 192.0.2.10:5432, got {word:?}")
    })
}

/// A weight.
pub fn weight(word: &str) -> Result<u16, String> {
    number(word, "a weight, 0 to 65535")
}

/// A server's number: whether there is such a server is the library's to say.
pub fn server(word: &str) -> Result<usize, String> {
    number(word, "a server's number, from 0")
}

/// A number in plain digits; `expected` says in the error what it should have been.
pub fn number<T: FromStr>(word: &str, expected: &str) -> Result<T, String> {
    // the standard library would take "+5" as well
    let digits = word.bytes().all(|byte| byte.is_ascii_digit());
    let parsed = if digits { word.parse().ok() } else { None };
    parsed.ok_or_else(|| format!("expected {expected}, got {word:?}"))
}

/// How many connections there is room for: the bounds are the library's to check.
pub fn slots(word: &str) -> Result<usize, String> {
    number(word, "a number of slots, 1 to 4096")
}

/// How many resets may be sent in a second.
pub fn resets(word: &str) -> Result<u32, String> {
    number_within(word, "resets a second, 1 to 10000", 1..=10_000)
}

/// How many seconds a connection may be opening. Later it would be idle anyway.
pub fn opening_timeout(word: &str) -> Result<u32, String> {
    number_within(word, "seconds, 0 to 900", 0..=900)
}

fn number_within(word: &str, expected: &str, range: RangeInclusive<u32>) -> Result<u32, String> {
    let found = number(word, expected)?;
    range
        .contains(&found)
        .then_some(found)
        .ok_or_else(|| format!("expected {expected}, got {word:?}"))
}
