//! A state and its row: what a call is handed beside its arguments.

use reference::table::{self, Slot, SlotNumber};
use reference::{is_sound, State};
use std::fmt;

#[derive(Clone, PartialEq, Eq)]
pub struct World {
    pub state: State,
    pub row: Vec<u32>,
}

impl World {
    pub fn new() -> World {
        World { state: State::new(), row: Vec::new() }
    }

    pub fn is_sound(&self) -> bool {
        is_sound(&self.state, &self.row)
    }

    /// How many whole slots there are.
    pub fn slots(&self) -> usize {
        self.row.len() / table::WORDS
    }

    pub fn slot(&self, number: usize) -> Slot {
        table::read(&self.row, SlotNumber(number))
    }

    pub fn put(&mut self, number: usize, slot: Slot) {
        table::write(&mut self.row, SlotNumber(number), slot);
    }

    /// The servers' counts, those in use.
    pub fn counts(&self) -> Vec<u32> {
        self.state.used_servers().iter().map(|server| server.count).collect()
    }
}

impl Default for World {
    fn default() -> World {
        World::new()
    }
}

impl fmt::Debug for World {
    /// Zero servers past those in use and free slots are left out.
    fn fmt(&self, out: &mut fmt::Formatter<'_>) -> fmt::Result {
        let state = &self.state;
        writeln!(out, "{:?}, clock {}, {:?}", state.service, state.clock, state.walk)?;
        let (largest, divisor) = (state.largest_weight, state.weight_divisor);
        writeln!(out, "  largest weight {largest}, divisor {divisor}")?;
        for (number, server) in state.servers.iter().enumerate() {
            let used = number < state.used_servers().len();
            if used || *server != Default::default() {
                writeln!(out, "  server {number}: {server:?}")?;
            }
        }
        writeln!(out, "  row of {} words", self.row.len())?;
        for (number, words) in self.row.chunks(table::WORDS).enumerate() {
            if words.iter().any(|&word| word != 0) {
                writeln!(out, "  slot {number}: {words:?}")?;
            }
        }
        Ok(())
    }
}
