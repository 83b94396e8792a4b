//! What the book counts by server.

/// Who or what has ended a connection.
#[derive(Clone, Copy, Debug, PartialEq, Eq, PartialOrd, Ord)]
pub enum Ending {
    /// The client, by its RST.
    Client,
    /// The server, by its RST.
    Server,
    /// No packet of it came for its idle limit.
    Idle,
    /// An operator's command.
    Operator,
    /// Nothing but opening SYNs came from its client for as long as the configuration allows.
    OpeningTimeout,
    /// The client's SYN, which found it finished and opened another.
    Renewed,
}

impl Ending {
    /// All of them, each at the place of its number.
    pub const ALL: [Ending; 6] = [
        Ending::Client,
        Ending::Server,
        Ending::Idle,
        Ending::Operator,
        Ending::OpeningTimeout,
        Ending::Renewed,
    ];

    /// Its name in texts.
    pub fn name(self) -> &'static str {
        match self {
            Ending::Client => "client",
            Ending::Server => "server",
            Ending::Idle => "idle",
            Ending::Operator => "operator",
            Ending::OpeningTimeout => "opening-timeout",
            Ending::Renewed => "renewed",
        }
    }
}

/// What became of a server's connections.
#[derive(Clone, Debug, Default, PartialEq, Eq)]
pub struct ServerCounts {
    /// Connections that were opened.
    pub opened: u64,
    /// Connections that were ended, in the order of [`Ending::ALL`].
    pub ended: [u64; Ending::ALL.len()],
    /// Of these, those that the server has ended within a second of their opening.
    pub early: u64,
}

impl ServerCounts {
    /// Connections that were ended so.
    pub fn ended_by(&self, ending: Ending) -> u64 {
        self.ended[ending as usize]
    }
}
