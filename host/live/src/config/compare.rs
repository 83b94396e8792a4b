//! What a configuration asks for that a running director hasn't: it would take a new setup.

use super::given::Given;
use super::{words, Config};
use nidhaaguf::{Protocol, Settings};
use std::net::SocketAddrV4;

/// A part of the setup in which a configuration and a director differ.
#[derive(Clone, Debug, PartialEq, Eq)]
pub struct Difference {
    /// The part, as "scheduler" or "server 2".
    pub part: String,
    /// What the director has.
    pub running: String,
    /// What the configuration says, and where.
    pub configured: Given<String>,
}

/// The first difference, but for weights, which need no new setup.
pub fn difference(config: &Config, settings: &Settings, slots: usize) -> Option<Difference> {
    let servers = 0..settings.servers.len().max(config.servers.len());
    let parts = [service(config, settings), scheduler(config, settings), table(config, slots)];
    let mut all = parts.into_iter().chain(servers.map(|number| server(config, settings, number)));
    all.find(|part| part.running != part.configured.value)
}

fn service(config: &Config, settings: &Settings) -> Difference {
    let named = |(at, protocol): (SocketAddrV4, Protocol)| {
        format!("{at} {}", words::protocol_name(protocol))
    };
    Difference {
        part: "service".into(),
        running: named((settings.service, settings.protocol)),
        configured: Given::new(named(config.service.value), &config.service.place),
    }
}

fn scheduler(config: &Config, settings: &Settings) -> Difference {
    let name = words::scheduler_name(config.scheduler.value).to_string();
    Difference {
        part: "scheduler".into(),
        running: words::scheduler_name(settings.scheduler).into(),
        configured: Given::new(name, &config.scheduler.place),
    }
}

fn table(config: &Config, slots: usize) -> Difference {
    Difference {
        part: "number of slots".into(),
        running: slots.to_string(),
        configured: Given::new(config.slots.value.to_string(), &config.slots.place),
    }
}

/// Of a number that only one of them has, the other has none.
fn server(config: &Config, settings: &Settings, number: usize) -> Difference {
    let named = |at: Option<SocketAddrV4>| at.map_or("none".to_string(), |at| at.to_string());
    let given = config.servers.get(number);
    let place = given.map_or(&config.name, |server| &server.place);
    Difference {
        part: format!("server {number}"),
        running: named(settings.servers.get(number).map(|server| server.at)),
        configured: Given::new(named(given.map(|server| server.value.at)), place),
    }
}
