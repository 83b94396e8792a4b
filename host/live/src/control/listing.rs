//! The connections as an operator reads them: sorted by server, and those of a server by their age.

use crate::book::{ConnectionState, SeenConnection};
use crate::control::json::Json;
use crate::control::table::aligned;
use crate::instance::Instance;
use nidhaaguf::Protocol;
use std::net::SocketAddrV4;

const TITLES: [&str; 7] = ["client", "server", "address", "age", "idle", "left", "state"];

/// Connections of one moment.
#[derive(Clone, Debug, PartialEq, Eq)]
pub struct Listing {
    connections: Vec<SeenConnection>,
    /// The servers' addresses, by number.
    servers: Vec<SocketAddrV4>,
    protocol: Protocol,
    /// Seconds that a connection may be opening; 0 for any time.
    opening_timeout: u32,
    clock: u32,
}

impl Listing {
    /// All connections, or those of one server.
    pub fn of(instance: &Instance, server: Option<usize>) -> Listing {
        let mut connections = instance.connections();
        connections.retain(|seen| server.is_none_or(|server| seen.connection.server == server));
        sort(&mut connections);
        let settings = instance.settings();
        Listing {
            connections,
            servers: settings.servers.iter().map(|server| server.at).collect(),
            protocol: settings.protocol,
            opening_timeout: instance.policy().opening_timeout,
            clock: instance.director().clock(),
        }
    }

    /// A table with a line for each.
    pub fn text(&self) -> String {
        aligned(TITLES, self.connections.iter().map(|seen| self.row(seen)))
    }

    /// The same as JSON.
    pub fn json(&self) -> Json {
        let connections = self.connections.iter().map(|seen| self.object(seen)).collect();
        Json::Object(vec![
            ("clock", Json::from(self.clock)),
            ("connections", Json::Array(connections)),
        ])
    }

    fn age(&self, seen: &SeenConnection) -> Option<u32> {
        seen.opened.map(|opened| self.clock.saturating_sub(opened))
    }

    /// Seconds until it is removed, if no packet comes.
    fn left(&self, seen: &SeenConnection) -> u32 {
        let by_silence = seen.left(self.protocol, self.clock);
        match (seen.state, self.opening_timeout) {
            (ConnectionState::Opening, timeout @ 1..) => {
                by_silence.min(timeout.saturating_sub(self.age(seen).unwrap_or(0)))
            }
            _ => by_silence,
        }
    }

    fn row(&self, seen: &SeenConnection) -> [String; 7] {
        let (client, server) = (seen.connection.client, seen.connection.server);
        [
            client.to_string(),
            server.to_string(),
            self.servers[server].to_string(),
            self.age(seen).map_or("-".into(), |age| age.to_string()),
            seen.idle(self.clock).to_string(),
            self.left(seen).to_string(),
            seen.state.name().to_string(),
        ]
    }

    fn object(&self, seen: &SeenConnection) -> Json {
        let (client, server) = (seen.connection.client, seen.connection.server);
        Json::Object(vec![
            ("client", Json::text(client)),
            ("server", Json::from(server as u64)),
            ("address", Json::text(self.servers[server])),
            ("state", Json::text(seen.state.name())),
            ("age", Json::known(self.age(seen))),
            ("idle", Json::from(seen.idle(self.clock))),
            ("left", Json::from(self.left(seen))),
        ])
    }
}

/// By server, and by age: the oldest first. An opening that isn't known was before all that are.
pub fn sort(connections: &mut [SeenConnection]) {
    connections
        .sort_unstable_by_key(|seen| (seen.connection.server, seen.opened, seen.connection.client));
}
