//! All that the next process needs of a director.

use super::possible;
use crate::book::{Entry, ServerCounts};
use crate::clock::Clock;
use crate::config::compare::{difference, Difference};
use crate::config::given::Given;
use crate::config::{setup, Config};
use crate::counters::Counters;
use crate::instance::{Assigned, Id, Instance};
use crate::log::position::Position;
use crate::log::Log;
use nidhaaguf::raw::State;
use nidhaaguf::{Connection, Director, Settings};
use std::fs;
use std::time::Duration;

/// A director between two packets.
#[derive(Clone, Debug, PartialEq)]
pub struct Snapshot {
    /// Which start of the machine its clock counts from.
    pub boot: String,
    /// Its clock.
    pub clock: Clock,
    /// The library's state.
    pub state: State,
    /// The library's connection table.
    pub row: Vec<u32>,
    /// The weights of the configuration that was read last.
    pub configured: Vec<u16>,
    /// What became of the packets.
    pub counters: Counters,
    /// How often weights were set.
    pub weights_set: u64,
    /// How far its log has come.
    pub log: Position,
    /// Which director it is.
    pub id: Id,
    /// Of each connection, in the order of the table, the number of its entry in the book.
    pub entries: Vec<u64>,
    /// What became of the connections, by server.
    pub servers: Vec<ServerCounts>,
    /// What was said of the servers.
    pub assigned: Vec<Assigned>,
}

impl Snapshot {
    /// Of a director that serves on this machine.
    pub fn of(instance: &Instance, log: &Log) -> Snapshot {
        let (state, row) = instance.director().parts();
        let book = instance.book();
        let word = |found: Connection| {
            book.entry(found.client).map_or(Entry::OF_UNKNOWN_OPENING, Entry::word)
        };
        Snapshot {
            boot: this_boot(),
            clock: instance.clock(),
            state: *state,
            row: row.to_vec(),
            configured: instance.settings().servers.iter().map(|server| server.weight).collect(),
            counters: instance.counters().clone(),
            weights_set: instance.weights_set(),
            log: log.position().clone(),
            id: instance.own_id().clone(),
            entries: instance.director().connections().map(word).collect(),
            servers: book.servers().to_vec(),
            assigned: instance.assigned().to_vec(),
        }
    }

    /// The director that goes on from here now, at a clock of that speed; an error says why there is none. It must be sound by
    /// the library's own judgement, and set up as the configuration says.
    pub fn resume(self, config: &Config, speed: u32, now: Duration) -> Result<Resumed, String> {
        possible::counts(&self)?;
        let director = Director::resume(self.state, self.row)
            .map_err(|refusal| format!("the library refuses it: {refusal}"))?;
        same_setup(&director, config)?;
        let own = self.clock.speed;
        if own != speed {
            return Err(format!(
                "its clock runs {own} times as fast as time, and not {speed} times"
            ));
        }
        possible::weights(&self.assigned, &director)?;
        let book = possible::book(&self.entries, self.servers, &director)?;
        let (settings, log) = (with_weights(director.settings(), &self.configured), self.log);
        if self.boot != this_boot() {
            let (fresh, clock) = (emptied(&director, config)?, Clock::new(now, speed));
            let instance = Instance::new(settings, fresh, clock).with_assigned(self.assigned);
            let (log, forgotten) = (Position::at_start(&instance), Some(director.used()));
            return Ok(Resumed { instance, log, forgotten });
        }
        if self.clock.second(now) < director.clock() {
            return Err(format!("its clock is ahead of the machine's: {}", director.clock()));
        }
        let instance = Instance::new(settings, director, self.clock)
            .with_assigned(self.assigned)
            .with_counts(self.counters, self.weights_set)
            .with_book(self.id, book);
        Ok(Resumed { instance, log, forgotten: None })
    }
}

/// A director that goes on.
#[derive(Debug)]
pub struct Resumed {
    /// The director.
    pub instance: Instance,
    /// How far its log has come.
    pub log: Position,
    /// How many connections are forgotten, if the machine was started anew: the clock began anew with it.
    pub forgotten: Option<u32>,
}

/// The machine's present start: it has another name after the next.
pub fn this_boot() -> String {
    // where it can't be read, no start is told from another, and the clock has to do
    fs::read_to_string("/proc/sys/kernel/random/boot_id").unwrap_or_default().trim().to_string()
}

fn same_setup(director: &Director, config: &Config) -> Result<(), String> {
    match difference(config, &director.settings(), director.slots()) {
        None => Ok(()),
        Some(Difference { part, running, configured }) => {
            let Given { value, place } = configured;
            Err(format!("its {part} is {running}, and {place} says {value}"))
        }
    }
}

fn with_weights(mut settings: Settings, weights: &[u16]) -> Settings {
    settings.servers.iter_mut().zip(weights).for_each(|(server, &weight)| server.weight = weight);
    settings
}

/// The same director without its connections.
fn emptied(director: &Director, config: &Config) -> Result<Director, String> {
    let mut empty = setup::set_up(config)?;
    for (number, server) in director.settings().servers.iter().enumerate() {
        empty.set_weight(number, server.weight).map_err(|refusal| refusal.to_string())?;
    }
    Ok(empty)
}
