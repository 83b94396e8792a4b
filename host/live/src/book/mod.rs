//! The book: what the packets told of each connection, beside what the library's table has of it. It is fed each packet with
//! its answer, and decides nothing.

mod counts;
mod entry;
mod state;

pub use counts::{Ending, ServerCounts};
pub use entry::Entry;
pub use state::{ConnectionState, SeenConnection};

use crate::packet::{is_opening, Packet, FIN};
use nidhaaguf::{Change, Connection, Passed, Protocol, TakenPacket, Way};
use std::collections::{HashMap, HashSet};
use std::net::SocketAddrV4;

/// An ending by a server is early up to so many seconds after the opening.
const EARLY: u32 = 1;

/// The connections by client, and what became of those before.
#[derive(Clone, Debug)]
pub struct Book {
    protocol: Protocol,
    entries: HashMap<SocketAddrV4, Entry>,
    /// How many of them are opening.
    opening: usize,
    servers: Vec<ServerCounts>,
    changes: u64,
}

impl Book {
    /// An empty one.
    pub fn new(protocol: Protocol, servers: usize) -> Book {
        Book::of(protocol, vec![ServerCounts::default(); servers], [])
    }

    /// One that goes on from these counts and entries.
    pub fn of(
        protocol: Protocol,
        servers: Vec<ServerCounts>,
        entries: impl IntoIterator<Item = (SocketAddrV4, Entry)>,
    ) -> Book {
        let entries: HashMap<_, _> = entries.into_iter().collect();
        let opening = entries.values().filter(|entry| entry.is_opening).count();
        Book { protocol, entries, opening, servers, changes: 0 }
    }

    /// The entry of a client.
    pub fn entry(&self, client: SocketAddrV4) -> Option<&Entry> {
        self.entries.get(&client)
    }

    /// All clients, in no order.
    pub fn clients(&self) -> impl Iterator<Item = SocketAddrV4> + '_ {
        self.entries.keys().copied()
    }

    /// What became of a server's connections.
    pub fn servers(&self) -> &[ServerCounts] {
        &self.servers
    }

    /// How many entries are opening.
    pub fn opening(&self) -> usize {
        self.opening
    }

    /// A number that grows whenever a connection changes: comes, goes, or is in another state.
    pub fn changes(&self) -> u64 {
        self.changes
    }

    /// A connection of the table, with what is known of it here.
    pub fn seen(&self, connection: Connection) -> SeenConnection {
        let entry = self.entry(connection.client);
        let is_opening = entry.is_some_and(|entry| entry.is_opening);
        let state = ConnectionState::of(connection.phase, is_opening);
        SeenConnection { connection, state, opened: entry.and_then(|entry| entry.opened) }
    }

    /// Whether a client's connection is opening, and was opened at least so long ago.
    pub fn is_late(&self, client: SocketAddrV4, clock: u32, timeout: u32) -> bool {
        let age = |entry: &Entry| entry.opened.map_or(0, |opened| clock.saturating_sub(opened));
        self.entry(client).is_some_and(|entry| entry.is_opening && age(entry) >= timeout)
    }

    /// A packet that the library was given at that clock, with its answer.
    pub fn take(&mut self, taken: &TakenPacket<'_>, clock: u32) {
        let Ok(Passed { server, change }) = taken.answer else { return };
        let Some(packet) = Packet::read(taken.bytes) else { return };
        // accepted, it is rewritten: the client is still its source, or its destination
        let (client, by) = match taken.way {
            Way::Inbound => (packet.sender(), Ending::Client),
            Way::Outbound => (packet.receiver(), Ending::Server),
        };
        let Some(client) = client else { return };
        match change {
            Change::Opened => self.open(client, server, clock),
            Change::Ended => self.end(client, by, clock),
            Change::Kept => self.keep(client, taken.way, packet.flags()),
        }
    }

    /// A client's connection has ended so.
    pub fn end(&mut self, client: SocketAddrV4, ending: Ending, clock: u32) {
        let Some(entry) = self.entries.remove(&client) else { return };
        let is_within = |opened| clock.saturating_sub(opened) <= EARLY;
        let is_early = ending == Ending::Server && entry.opened.is_some_and(is_within);
        self.opening -= usize::from(entry.is_opening);
        self.changes += 1;
        if let Some(counts) = self.servers.get_mut(entry.server) {
            counts.ended[ending as usize] += 1;
            counts.early += u64::from(is_early);
        }
    }

    /// Ends as idle all that the table has no more.
    pub fn end_idle(&mut self, table: impl Iterator<Item = Connection>, clock: u32) {
        let there: HashSet<_> = table.map(|connection| connection.client).collect();
        let gone: Vec<_> = self.clients().filter(|client| !there.contains(client)).collect();
        gone.into_iter().for_each(|client| self.end(client, Ending::Idle, clock));
    }

    fn open(&mut self, client: SocketAddrV4, server: usize, clock: u32) {
        self.end(client, Ending::Renewed, clock);
        let is_opening = self.protocol == Protocol::Tcp;
        self.entries.insert(client, Entry { server, opened: Some(clock), is_opening });
        self.opening += usize::from(is_opening);
        self.changes += 1;
        if let Some(counts) = self.servers.get_mut(server) {
            counts.opened += 1;
        }
    }

    /// Most packets come here: an entry is looked up only while some are opening.
    fn keep(&mut self, client: SocketAddrV4, way: Way, flags: Option<u8>) {
        let Some(flags) = flags else { return };
        // who has finished is the table's to say
        self.changes += u64::from(flags & FIN != 0);
        if self.opening == 0 || way == Way::Outbound || is_opening(flags) {
            return;
        }
        if let Some(entry) = self.entries.get_mut(&client).filter(|entry| entry.is_opening) {
            entry.is_opening = false;
            self.opening -= 1;
            self.changes += 1;
        }
    }
}
