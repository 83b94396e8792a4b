//! What is left of a server's connections: written by the director, and read by who waits for their end.

use crate::control::load::Load;
use crate::instance::Instance;
use nidhaaguf::Phase;
use std::fmt;
use std::net::SocketAddrV4;
use std::str::FromStr;

/// What is left of a server's connections.
#[derive(Clone, Debug, PartialEq, Eq)]
pub struct Left {
    /// The director that tells it.
    pub director: String,
    /// The server's number.
    pub server: usize,
    /// Its address and port.
    pub at: SocketAddrV4,
    /// It gets new connections: a count of zero wouldn't last.
    pub in_service: bool,
    /// Its connections.
    pub connections: u32,
    /// Those of them that both ends have finished.
    pub finished: u32,
    /// Seconds until the last of the finished ones is removed.
    pub last: u32,
    /// Seconds since the last packet of that connection, of those that are not finished, which is silent for longest.
    pub idle: u32,
}

impl Left {
    /// Of a server with that load.
    pub fn of(instance: &Instance, load: Load) -> Left {
        let (clock, protocol) = (instance.director().clock(), instance.settings().protocol);
        let (mut last, mut idle) = (0, 0);
        for connection in
            instance.director().connections().filter(|found| found.server == load.server)
        {
            let silent = clock.saturating_sub(connection.seen);
            match connection.phase {
                Phase::Finished => {
                    last = last.max(Phase::Finished.idle_limit(protocol).saturating_sub(silent));
                }
                _ => idle = idle.max(silent),
            }
        }
        let Load { server, at, connections, finished, .. } = load;
        let (director, in_service) = (instance.id().to_string(), load.is_in_service());
        Left { director, server, at, in_service, connections, finished, last, idle }
    }
}

impl fmt::Display for Left {
    /// One line of names and values.
    fn fmt(&self, out: &mut fmt::Formatter<'_>) -> fmt::Result {
        let Left { director, server, at, in_service, connections, finished, last, idle } = self;
        let service = if *in_service { "in" } else { "out" };
        write!(out, "director {director} server {server} address {at} service {service} ")?;
        write!(out, "connections {connections} finished {finished} last {last} idle {idle}")
    }
}

impl FromStr for Left {
    type Err = String;

    /// Names that aren't known are left out, so that a later director may tell more.
    fn from_str(line: &str) -> Result<Left, String> {
        let words: Vec<&str> = line.split_whitespace().collect();
        let value = |name: &str| {
            let pair = words.chunks_exact(2).find(|pair| pair[0] == name);
            pair.map(|pair| pair[1]).ok_or_else(|| format!("expected `{name}` in {line:?}"))
        };
        Ok(Left {
            director: value("director")?.to_string(),
            server: parsed(value("server")?)?,
            at: parsed(value("address")?)?,
            in_service: value("service")? == "in",
            connections: parsed(value("connections")?)?,
            finished: parsed(value("finished")?)?,
            last: parsed(value("last")?)?,
            idle: parsed(value("idle")?)?,
        })
    }
}

fn parsed<T: FromStr>(word: &str) -> Result<T, String> {
    word.parse().map_err(|_| format!("expected a number or an address, got {word:?}"))
}
