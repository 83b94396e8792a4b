//! The connections of a director, to be read.

use crate::raw::WORDS_PER_SLOT;
use crate::Protocol;
use std::net::{Ipv4Addr, SocketAddrV4};

/// Which sides of a connection have finished: sent a TCP FIN. Of UDP none has.
#[derive(Clone, Copy, Debug, PartialEq, Eq, Hash, PartialOrd, Ord)]
pub enum Phase {
    /// None.
    Open,
    /// The client.
    ClientFinished,
    /// The server.
    ServerFinished,
    /// Both. Late segments still belong to it.
    Finished,
}

impl Phase {
    /// All of them, in the order of the library's numbers, which begin with 1.
    pub const ALL: [Phase; 4] =
        [Phase::Open, Phase::ClientFinished, Phase::ServerFinished, Phase::Finished];

    /// For how many seconds a connection stays of which no packet comes.
    pub fn idle_limit(self, protocol: Protocol) -> u32 {
        match (protocol, self) {
            (Protocol::Udp, _) => 300,
            (Protocol::Tcp, Phase::Finished) => 120,
            (Protocol::Tcp, _) => 900,
        }
    }
}

/// A connection, as the table has it.
#[derive(Clone, Copy, Debug, PartialEq, Eq, Hash)]
pub struct Connection {
    /// The client's address and port, by which it is known.
    pub client: SocketAddrV4,
    /// The number of its server.
    pub server: usize,
    /// Who has finished.
    pub phase: Phase,
    /// The clock of its last packet.
    pub seen: u32,
}

impl Connection {
    /// The connection of a slot's words; None where the slot is free.
    fn of_words(words: &[u32]) -> Option<Connection> {
        let [phase, address, port, server, seen] = *words else { return None };
        let phase = *Phase::ALL.get((phase as usize).checked_sub(1)?)?;
        let client = SocketAddrV4::new(Ipv4Addr::from(address), port as u16);
        Some(Connection { client, server: server as usize, phase, seen })
    }
}

/// The connections of a row.
pub(crate) fn connections(row: &[u32]) -> impl Iterator<Item = Connection> + '_ {
    row.chunks_exact(WORDS_PER_SLOT).filter_map(Connection::of_words)
}
