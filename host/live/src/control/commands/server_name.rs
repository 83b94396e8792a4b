//! How an operator names a server.

use crate::config::words;
use crate::control::load::Load;
use crate::instance::Instance;
use nidhaaguf::Refusal;
use std::net::SocketAddrV4;

/// A server, as an operator names it.
#[derive(Clone, Copy, Debug, PartialEq, Eq)]
pub enum ServerName {
    /// By its number.
    Number(usize),
    /// By its address and port.
    Address(SocketAddrV4),
}

impl ServerName {
    /// Reads a name. Whether there is such a server, the director has to say.
    pub fn read(word: &str) -> Result<ServerName, String> {
        let number = || words::server(word).map(ServerName::Number);
        let address = || words::address(word).map(ServerName::Address);
        number()
            .or_else(|_| address())
            .map_err(|_| format!("expected a server's number or its ADDRESS:PORT, got {word:?}"))
    }

    /// The number of the server of that name.
    pub fn number(self, instance: &Instance) -> Result<usize, String> {
        let servers = &instance.settings().servers;
        let last = servers.len() - 1;
        match self {
            ServerName::Number(number) if number <= last => Ok(number),
            ServerName::Number(number) => {
                let refusal = Refusal::NoServer;
                Err(format!("{refusal}: the servers are 0 to {last}, got {number}"))
            }
            ServerName::Address(at) => {
                let found = servers.iter().position(|server| server.at == at);
                found.ok_or_else(|| format!("none of the servers 0 to {last} is {at}"))
            }
        }
    }

    /// What the server of that name has to do.
    pub fn load(self, instance: &Instance) -> Result<Load, String> {
        let number = self.number(instance)?;
        Load::of(instance, number).map_err(|refusal| refusal.to_string())
    }
}
