//! "The book": fed each call's arguments without state and rows, a packet as it was handed in,
//! and the call's answer; nothing else. It shares no code with the director but the plain data.

mod checks;
mod reading;

use crate::data::{Answer, Change, Server, Service, PLACES, UDP};
use crate::refusal;

pub use checks::check;
pub use reading::{End, Reading, Way};

/// A call's arguments without state and row; packets as handed in.
#[derive(Clone, Copy, Debug)]
pub enum Call<'a> {
    SetUp { service: Service, servers: &'a [Server; PLACES] },
    SetWeight { number: u32, weight: u16 },
    Count { number: u32 },
    Tick { clock: u32 },
    Inbound { packet: &'a [u8], clock: u32 },
    Outbound { packet: &'a [u8], clock: u32 },
}

/// "An entry is a connection: client address and port, server number, which of the two have
/// finished (sent FIN), last second."
#[derive(Clone, Copy, Debug, PartialEq, Eq)]
pub struct Entry {
    pub client: End,
    pub server: u32,
    pub client_finished: bool,
    pub server_finished: bool,
    pub last: u32,
}

/// The latest accepted settings.
#[derive(Clone, Copy, Debug, PartialEq, Eq)]
pub struct Settings {
    pub service: Service,
    pub servers: [Server; PLACES],
}

impl Settings {
    /// A server's address and port from setup.
    pub fn server(&self, number: u32) -> Option<End> {
        if number >= self.service.servers {
            return None;
        }
        let server = self.servers.get(number as usize)?;
        Some((server.address, server.port))
    }

    /// The number of the server with this address and port.
    pub fn number_of(&self, end: End) -> Option<u32> {
        (0..self.service.servers.min(PLACES as u32)).find(|&n| self.server(n) == Some(end))
    }
}

/// "It holds the latest accepted settings, a clock and entries."
#[derive(Clone, Debug, Default, PartialEq, Eq)]
pub struct Book {
    pub settings: Option<Settings>,
    pub clock: u32,
    pub entries: Vec<Entry>,
}

impl Entry {
    pub fn both_finished(&self) -> bool {
        self.client_finished && self.server_finished
    }
}

impl Book {
    pub fn new() -> Book {
        Book::default()
    }

    /// "each entry is struck for which clock less last second is at or above 300 (UDP),
    /// 900 (TCP) or 120 (TCP, both finished)"
    pub fn is_idle(&self, entry: &Entry, clock: u32) -> bool {
        let udp = self.settings.is_some_and(|s| s.service.protocol == UDP);
        let limit = if udp {
            300
        } else if entry.both_finished() {
            120
        } else {
            900
        };
        clock.saturating_sub(entry.last) >= limit
    }

    /// A client's entry, among those not idle at this clock.
    pub fn live_entry(&self, client: End, clock: u32) -> Option<&Entry> {
        let mut entries = self.entries.iter();
        entries.find(|entry| entry.client == client && !self.is_idle(entry, clock))
    }

    /// "a server's count is the number of entries naming it"
    pub fn count_of(&self, server: u32) -> u32 {
        self.entries.iter().filter(|e| e.server == server).count() as u32
    }

    /// "Accepted setup: its settings, clock 0, no entries."
    pub fn set_up(&mut self, service: Service, servers: &[Server; PLACES]) {
        self.settings = Some(Settings { service, servers: *servers });
        self.clock = 0;
        self.entries.clear();
    }

    /// An accepted clock: "the clock becomes it. Then each [idle] entry is struck". How many.
    pub fn accept_clock(&mut self, clock: u32) -> u32 {
        self.clock = clock;
        let before = self.entries.len();
        let kept: Vec<Entry> =
            self.entries.iter().filter(|entry| !self.is_idle(entry, clock)).copied().collect();
        self.entries = kept;
        (before - self.entries.len()) as u32
    }

    /// What an accepted packet changes, once the idle entries are struck.
    pub fn enter(&mut self, reading: &Reading, way: Way, server: u32, change: Change) {
        let clock = self.clock;
        let client = reading.client(way);
        match change {
            Change::Opened => {
                // "for such a packet answered "opened", and no other, its book strikes the client's
                // entry, if both have finished, before it adds the new one"
                if reading.could_renew(way) {
                    self.entries.retain(|e| e.client != client || !e.both_finished());
                }
                // "its client, the answer's server, none finished, last second the clock"
                let (client_finished, server_finished) = (false, false);
                let last = clock;
                self.entries.push(Entry { client, server, client_finished, server_finished, last });
            }
            // "gets the clock as last second, and a TCP FIN marks its sender finished"
            Change::Kept => {
                if let Some(entry) = self.entries.iter_mut().find(|e| e.client == client) {
                    entry.last = clock;
                    entry.client_finished |= reading.fin && way == Way::Inbound;
                    entry.server_finished |= reading.fin && way == Way::Outbound;
                }
            }
            // "its client's entry is struck"
            Change::Ended => self.entries.retain(|e| e.client != client),
        }
    }
}

/// "Tick or packet whose clock is accepted, as its answer shows": past 11 in the order.
pub fn shows_accepted_clock(answer: Answer) -> bool {
    match answer {
        Answer::Number(_) | Answer::Passed(..) => true,
        Answer::Refused(number) => refusal::keeps_clock(number),
        Answer::Done => false,
    }
}
