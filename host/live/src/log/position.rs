//! How far the log has come: plain numbers, which are handed on to the process that serves next.

use crate::instance::Instance;
use crate::log::Level;
use nidhaaguf::{Refusal, Way};

/// How far the log has come.
#[derive(Clone, Debug, Default, PartialEq, Eq)]
pub struct Position {
    /// Lines written so far.
    pub lines: u64,
    /// Lines lost since the last one that was written: they are not told yet.
    pub lost: u64,
    /// What was told.
    pub told: Told,
}

/// What was told of things that last, so that each is told once.
#[derive(Clone, Debug, Default, PartialEq, Eq)]
pub struct Told {
    /// The table is told as full.
    pub full: bool,
    /// Openings that were refused because the table was full (13), as of the latest look.
    pub refused: u64,
    /// The same, as of the look before the table was told as full.
    pub refused_before: u64,
    /// A bit for each server, by its number: it is told as drained.
    pub drained: u64,
}

impl Position {
    /// At a fresh start: what is so by then is not told.
    pub fn at_start(instance: &Instance) -> Position {
        let mut told = Told::default();
        told.look(instance);
        Position { told, ..Position::default() }
    }
}

impl Told {
    /// Looks at the table and the servers; gives the lines to tell, which are none where nothing is new.
    pub fn look(&mut self, instance: &Instance) -> Vec<(Level, String)> {
        let mut lines = self.look_at_servers(instance);
        lines.extend(self.look_at_table(instance));
        lines
    }

    fn look_at_servers(&mut self, instance: &Instance) -> Vec<(Level, String)> {
        let mut lines = Vec::new();
        for (number, server) in instance.settings().servers.iter().enumerate() {
            let is_drained = is_drained(instance, number);
            let was_drained = self.drained >> number & 1 == 1;
            self.drained = self.drained & !(1 << number) | u64::from(is_drained) << number;
            if is_drained && !was_drained {
                let server = format!("server {number} ({})", server.at);
                let line = format!("{server} is drained: no connections, may be unplugged");
                lines.push((Level::Notice, line));
            }
        }
        lines
    }

    /// It has room again when a tenth of it is free, so that a table at its limit isn't told over and over.
    fn look_at_table(&mut self, instance: &Instance) -> Option<(Level, String)> {
        let (used, slots) = (instance.director().used() as usize, instance.director().slots());
        let refused = instance.counters().packets.refused(Way::Inbound, Refusal::TableFull);
        let before = std::mem::replace(&mut self.refused, refused);
        let used_words = format!("{used} of {slots} slots used");
        if !self.full && (used == slots || refused > before) {
            (self.full, self.refused_before) = (true, before);
            let line = match used == slots {
                true => format!("the table is full: {used_words}, new connections are refused"),
                false => format!(
                    "the table was full: {used_words} now, {} openings were refused",
                    refused - before
                ),
            };
            return Some((Level::Warning, line));
        }
        if self.full && refused == before && used + slots / 10 < slots {
            self.full = false;
            let refused = refused - self.refused_before;
            let line =
                format!("the table has room again: {used_words}, {refused} openings were refused");
            return Some((Level::Notice, line));
        }
        None
    }
}

/// The count is asked of drained servers alone: it takes a look at the whole table.
fn is_drained(instance: &Instance, server: usize) -> bool {
    instance.weight(server) == Some(0) && instance.director().count(server) == Ok(0)
}
