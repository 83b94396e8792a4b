//! What was said of each server: its weight by an operator, and whether it is down by a health check. Neither undoes the other.

use super::Instance;
use nidhaaguf::Refusal;
use std::fmt;
use std::net::SocketAddrV4;

/// What was said of a server.
#[derive(Clone, Copy, Debug, PartialEq, Eq)]
pub struct Assigned {
    /// The operator's weight.
    pub weight: u16,
    /// Whether it gets no new connections whatever its weight.
    pub is_down: bool,
}

impl Assigned {
    /// The weight that the library is to have.
    pub fn in_force(self) -> u16 {
        if self.is_down {
            0
        } else {
            self.weight
        }
    }
}

impl Instance {
    /// What was said of the servers.
    pub fn assigned(&self) -> &[Assigned] {
        &self.assigned
    }

    /// Sets a server's weight, which is in force unless the server is down; None where it has been that already.
    pub fn set_weight(&mut self, server: usize, new: u16) -> Result<Option<WeightChange>, Refusal> {
        let before = *self.assigned.get(server).ok_or(Refusal::NoServer)?;
        self.assign(server, Assigned { weight: new, ..before })?;
        let (at, old) = (self.settings.servers[server].at, before.weight);
        Ok((old != new).then_some(WeightChange { server, at, old, new }))
    }

    /// Says that a server is down, so that it gets no new connections whatever its weight, or up again; tells whether that is new.
    pub fn set_down(&mut self, server: usize, down: bool) -> Result<bool, Refusal> {
        let before = *self.assigned.get(server).ok_or(Refusal::NoServer)?;
        self.assign(server, Assigned { is_down: down, ..before })?;
        Ok(before.is_down != down)
    }

    /// Whether a server is said to be down.
    pub fn is_down(&self, server: usize) -> bool {
        self.assigned.get(server).is_some_and(|assigned| assigned.is_down)
    }

    /// The weight that an operator gave a server, also while it is down; None where no server has that number.
    pub fn weight(&self, server: usize) -> Option<u16> {
        self.assigned.get(server).map(|assigned| assigned.weight)
    }

    fn assign(&mut self, server: usize, assigned: Assigned) -> Result<(), Refusal> {
        self.director.set_weight(server, assigned.in_force())?;
        self.assigned[server] = assigned;
        self.weights_set += 1;
        Ok(())
    }
}

/// A weight that was changed.
#[derive(Clone, Copy, Debug, PartialEq, Eq)]
pub struct WeightChange {
    /// The server's number.
    pub server: usize,
    /// Its address and port.
    pub at: SocketAddrV4,
    /// The weight before.
    pub old: u16,
    /// The weight now.
    pub new: u16,
}

impl fmt::Display for WeightChange {
    fn fmt(&self, out: &mut fmt::Formatter<'_>) -> fmt::Result {
        let WeightChange { server, at, old, new } = self;
        write!(out, "server {server} ({at}): weight {old} -> {new}")
    }
}
