//! One running director: the library's state, its clock, the book and the counts.

mod assigned;
mod endings;
mod id;
mod resets;
mod serving;

pub use assigned::{Assigned, WeightChange};
pub use id::Id;

use crate::book::{Book, Entry, SeenConnection};
use crate::clock::Clock;
use crate::counters::Counters;
use crate::policy::Policy;
use crate::segments;
use nidhaaguf::{Connection, Director, Settings};
use resets::Resets;
use std::time::Duration;

/// A running director.
#[derive(Debug)]
pub struct Instance {
    id: Id,
    settings: Settings,
    director: Director,
    clock: Clock,
    counters: Counters,
    weights_set: u64,
    book: Book,
    /// What was said of each server.
    assigned: Vec<Assigned>,
    policy: Policy,
    /// Whether the latest tick has left openings that are late.
    has_late: bool,
    resets: Resets,
    /// Segments of the program's own, until somebody sends them who has the device.
    outbox: Vec<[u8; segments::LENGTH]>,
    device: Option<String>,
}

impl Instance {
    /// A director that was set up with `settings`. It drops packets of unknown connections, and lets connections be opening for any
    /// time, until [`set_policy`](Instance::set_policy) says otherwise.
    pub fn new(settings: Settings, mut director: Director, clock: Clock) -> Instance {
        // then a serve at the same clock finds none that is idle. Never refused: the clock is its own
        let idle_removed = director.tick(director.clock()).unwrap_or(0).into();
        let of_weight = |weight| Assigned { weight, is_down: false };
        let servers = director.settings().servers;
        let known = |connection: Connection| {
            let entry = Entry { server: connection.server, opened: None, is_opening: false };
            (connection.client, entry)
        };
        let counts = vec![Default::default(); servers.len()];
        Instance {
            id: Id::new(),
            book: Book::of(settings.protocol, counts, director.connections().map(known)),
            assigned: servers.iter().map(|server| of_weight(server.weight)).collect(),
            settings,
            director,
            clock,
            counters: Counters { idle_removed, ..Counters::default() },
            weights_set: 0,
            policy: Policy::NONE,
            has_late: false,
            resets: Resets::default(),
            outbox: Vec::new(),
            device: None,
        }
    }

    /// The same director, whose counts go on from these.
    pub fn with_counts(self, mut counters: Counters, weights_set: u64) -> Instance {
        counters.idle_removed += self.counters.idle_removed;
        Instance { counters, weights_set, ..self }
    }

    /// The same director, of that name, whose book goes on from this one.
    pub fn with_book(self, id: Id, mut book: Book) -> Instance {
        book.end_idle(self.director.connections(), self.director.clock());
        Instance { id, book, ..self }
    }

    /// The same director, of whose servers this was said. The library has the weights that are in force already.
    pub fn with_assigned(self, assigned: Vec<Assigned>) -> Instance {
        Instance { assigned, ..self }
    }

    /// The same director, which serves that device.
    pub fn with_device(self, name: &str) -> Instance {
        Instance { device: Some(name.to_string()), ..self }
    }

    /// This director: the same through take-overs and restarts that keep its connections.
    pub fn id(&self) -> &str {
        self.id.as_str()
    }

    /// The same, as it is handed on.
    pub fn own_id(&self) -> &Id {
        &self.id
    }

    /// Its clock.
    pub fn clock(&self) -> Clock {
        self.clock
    }

    /// How often weights were set.
    pub fn weights_set(&self) -> u64 {
        self.weights_set
    }

    /// What it was set up with. The weights are those of the configuration applied last; by commands they may be others since.
    pub fn settings(&self) -> &Settings {
        &self.settings
    }

    /// The library's director.
    pub fn director(&self) -> &Director {
        &self.director
    }

    /// The counts.
    pub fn counters(&self) -> &Counters {
        &self.counters
    }

    /// What the packets told of the connections.
    pub fn book(&self) -> &Book {
        &self.book
    }

    /// The device that it serves, where it is known.
    pub fn device(&self) -> Option<&str> {
        self.device.as_deref()
    }

    /// What the configuration says beside the weights.
    pub fn policy(&self) -> Policy {
        self.policy
    }

    /// Keeps what the configuration says.
    pub fn set_policy(&mut self, policy: Policy) {
        self.policy = policy;
    }

    /// The connections, in the order of the table.
    pub fn connections(&self) -> Vec<SeenConnection> {
        self.director.connections().map(|connection| self.book.seen(connection)).collect()
    }

    /// A number that grows whenever weights or connections change.
    pub fn changes(&self) -> u64 {
        self.weights_set + self.book.changes()
    }

    /// Moves the library's clock to now, as time since the machine's start. That removes the idle connections, and those that are
    /// opening for too long are ended: some of them, where they are many, and the others at once by the next call.
    pub fn tick(&mut self, now: Duration) {
        let second = self.clock.second(now);
        if second == self.director.clock() && !self.has_late {
            return;
        }
        // never refused: the clock doesn't go back
        let removed = self.director.tick(second).unwrap_or(0);
        self.count_idle(removed);
        self.end_late_openings();
    }

    /// How long until there is something to do for [`tick`](Instance::tick): the clock shows another second, unless it has left
    /// something.
    pub fn until_tick(&self, now: Duration) -> Duration {
        if self.has_late {
            Duration::ZERO
        } else {
            self.clock.until_next(now)
        }
    }

    /// Keeps the settings of a configuration that was applied: other weights than those that it was set up with.
    pub fn keep_settings(&mut self, settings: Settings) {
        self.settings = settings;
    }

    fn count_idle(&mut self, removed: u32) {
        self.counters.idle_removed += u64::from(removed);
        if removed > 0 {
            self.book.end_idle(self.director.connections(), self.director.clock());
        }
    }
}
