//! A connection as people see it: the state that it is in, and how long it has been silent.

use nidhaaguf::{Connection, Phase, Protocol};

/// What a connection is in, for people.
#[derive(Clone, Copy, Debug, PartialEq, Eq, PartialOrd, Ord)]
pub enum ConnectionState {
    /// Nothing but its opening SYNs has come from its client.
    Opening,
    /// None has finished.
    Open,
    /// The client has sent FIN.
    ClientFinished,
    /// The server has.
    ServerFinished,
    /// Both have: it counts on for its late segments.
    Finished,
}

impl ConnectionState {
    /// All of them.
    pub const ALL: [ConnectionState; 5] = [
        ConnectionState::Opening,
        ConnectionState::Open,
        ConnectionState::ClientFinished,
        ConnectionState::ServerFinished,
        ConnectionState::Finished,
    ];

    /// The state of a connection in that phase.
    pub fn of(phase: Phase, is_opening: bool) -> ConnectionState {
        match phase {
            Phase::Open if is_opening => ConnectionState::Opening,
            Phase::Open => ConnectionState::Open,
            Phase::ClientFinished => ConnectionState::ClientFinished,
            Phase::ServerFinished => ConnectionState::ServerFinished,
            Phase::Finished => ConnectionState::Finished,
        }
    }

    /// Its name in texts.
    pub fn name(self) -> &'static str {
        match self {
            ConnectionState::Opening => "opening",
            ConnectionState::Open => "open",
            ConnectionState::ClientFinished => "client finished",
            ConnectionState::ServerFinished => "server finished",
            ConnectionState::Finished => "finished",
        }
    }
}

/// A connection of the table, with what the packets told of it.
#[derive(Clone, Copy, Debug, PartialEq, Eq)]
pub struct SeenConnection {
    /// As the table has it.
    pub connection: Connection,
    /// What it is in.
    pub state: ConnectionState,
    /// The clock of its opening; None where that isn't known.
    pub opened: Option<u32>,
}

impl SeenConnection {
    /// Seconds since its last packet.
    pub fn idle(&self, clock: u32) -> u32 {
        clock.saturating_sub(self.connection.seen)
    }

    /// Seconds until it is removed, if no packet comes.
    pub fn left(&self, protocol: Protocol, clock: u32) -> u32 {
        self.connection.phase.idle_limit(protocol).saturating_sub(self.idle(clock))
    }
}
