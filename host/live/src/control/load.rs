//! What a server has to do.

use crate::instance::Instance;
use nidhaaguf::{Phase, Refusal};
use std::fmt;
use std::net::SocketAddrV4;

/// What a server has to do.
#[derive(Clone, Copy, Debug, PartialEq, Eq)]
pub struct Load {
    /// Its number.
    pub server: usize,
    /// Its address and port.
    pub at: SocketAddrV4,
    /// The weight that an operator gave it.
    pub weight: u16,
    /// It is said to be down.
    pub is_down: bool,
    /// Its connections, by the library's count.
    pub connections: u32,
    /// Those of them that both ends have finished.
    pub finished: u32,
}

impl Load {
    /// The load of the server of that number.
    pub fn of(instance: &Instance, server: usize) -> Result<Load, Refusal> {
        let connections = instance.director().count(server)?;
        Ok(Load::new(instance, server, connections, finished(instance)[server]))
    }

    /// Those of all servers, by number.
    pub fn of_all(instance: &Instance) -> Vec<Load> {
        let load = |(server, finished)| {
            // never refused: there is such a server
            let connections = instance.director().count(server).unwrap_or(0);
            Load::new(instance, server, connections, finished)
        };
        finished(instance).into_iter().enumerate().map(load).collect()
    }

    fn new(instance: &Instance, server: usize, connections: u32, finished: u32) -> Load {
        Load {
            server,
            at: instance.settings().servers[server].at,
            weight: instance.weight(server).unwrap_or(0),
            is_down: instance.is_down(server),
            connections,
            finished,
        }
    }

    /// Its connections that are not finished.
    pub fn open(&self) -> u32 {
        self.connections - self.finished
    }

    /// Whether it gets new connections.
    pub fn is_in_service(&self) -> bool {
        self.weight > 0 && !self.is_down
    }

    /// What the server may be used for.
    pub fn state(&self) -> &'static str {
        match (self.is_down, self.weight, self.connections) {
            (false, 1.., _) => "in service",
            (false, 0, 1..) => "draining",
            (false, 0, 0) => "may be unplugged",
            (true, 1.., _) => "down",
            (true, 0, 1..) => "down, draining",
            (true, 0, 0) => "down, may be unplugged",
        }
    }
}

impl fmt::Display for Load {
    /// What a command that changed it answers.
    fn fmt(&self, out: &mut fmt::Formatter<'_>) -> fmt::Result {
        let Load { server, at, weight, connections, .. } = self;
        let state = self.state();
        write!(out, "server {server} ({at}): weight {weight}, {connections} connections, {state}")
    }
}

/// How many connections of each server are finished.
fn finished(instance: &Instance) -> Vec<u32> {
    let mut finished = vec![0; instance.settings().servers.len()];
    for connection in instance.director().connections() {
        finished[connection.server] += u32::from(connection.phase == Phase::Finished);
    }
    finished
}
