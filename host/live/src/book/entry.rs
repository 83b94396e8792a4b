//! A connection of the book, and the number by which it is handed on.

use nidhaaguf::{Connection, Phase, Protocol};

/// A connection of the book.
#[derive(Clone, Copy, Debug, PartialEq, Eq)]
pub struct Entry {
    /// The number of its server.
    pub server: usize,
    /// The clock of its opening; None where that isn't known.
    pub opened: Option<u32>,
    /// Whether nothing but opening SYNs has come from its client.
    pub is_opening: bool,
}

/// Above the opening's clock: that it is known, and that the connection is opening.
const KNOWN: u64 = 1 << 32;
const OPENING: u64 = 1 << 33;

impl Entry {
    /// The number of an entry of which nothing is known but its server.
    pub const OF_UNKNOWN_OPENING: u64 = 0;

    /// Its number: all but its server, which the table has.
    pub fn word(&self) -> u64 {
        let opening = if self.is_opening { OPENING } else { 0 };
        self.opened.map_or(0, |clock| KNOWN | u64::from(clock)) | opening
    }

    /// The entry of that number, of a connection of the table; None where that connection can't have it: it was opened after its
    /// last packet, or is opening though its client has finished, or UDP.
    pub fn of_word(word: u64, connection: &Connection, protocol: Protocol) -> Option<Entry> {
        let (clock, flags) = (word as u32, word >> 32 << 32);
        let (opened, is_opening) = match flags {
            0 if clock == 0 => (None, false),
            KNOWN => (Some(clock), false),
            flags if flags == KNOWN | OPENING => (Some(clock), true),
            _ => return None,
        };
        let may_open = matches!(connection.phase, Phase::Open | Phase::ServerFinished);
        let is_in_time = opened.is_none_or(|clock| clock <= connection.seen);
        let is_possible = is_in_time && (!is_opening || may_open && protocol == Protocol::Tcp);
        is_possible.then_some(Entry { server: connection.server, opened, is_opening })
    }
}
