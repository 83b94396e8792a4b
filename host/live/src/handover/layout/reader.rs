//! A director's fields, read one after another.

use super::{Form, COUNTERS_A_WAY};
use crate::book::{Ending, Entry, ServerCounts};
use crate::clock::Clock;
use crate::counters::Counters;
use crate::handover::snapshot::Snapshot;
use crate::instance::{Assigned, Id};
use crate::log::position::{Position, Told};
use nidhaaguf::raw::{Server, Service, State, COUNTERS, PLACES, WORDS_PER_SLOT};
use std::time::Duration;

/// What is left to read; every read gives None where too little is left.
pub struct Reader<'a>(pub &'a [u8]);

impl Reader<'_> {
    pub fn snapshot(&mut self, form: Form) -> Option<Snapshot> {
        let boot = self.text()?;
        let seconds = Duration::from_secs(self.u64()?);
        let zero = seconds.checked_add(Duration::from_nanos(self.u32()?.into()))?;
        let clock = Clock { zero, speed: self.u32()? };
        let state = self.state()?;
        let words = self.u32()? as usize;
        // so many bytes must be there, before room is made for the words
        self.0.get(..words.checked_mul(4)?)?;
        let row: Vec<_> = (0..words).map(|_| self.u32()).collect::<Option<_>>()?;
        let servers = (state.service.servers as usize).min(PLACES);
        let configured = (0..servers).map(|_| self.u16()).collect::<Option<_>>()?;
        let counters = self.counters(form.counters_a_way)?;
        let (weights_set, log) = (self.u64()?, self.position()?);
        let added = match form.has_book {
            true => self.added(servers)?,
            false => Added::none(&state, &row, servers),
        };
        let Added { id, entries, servers, assigned, resets, ipv6 } = added;
        let [resets_sent, resets_unsent] = resets;
        let counters = Counters { resets_sent, resets_unsent, ipv6, ..counters };
        Some(Snapshot {
            boot,
            clock,
            state,
            row,
            configured,
            counters,
            weights_set,
            log,
            id,
            entries,
            servers,
            assigned,
        })
    }

    fn added(&mut self, servers: usize) -> Option<Added> {
        let (id, words) = (Id::of_number(self.u64()?), self.u32()? as usize);
        // as of the row
        self.0.get(..words.checked_mul(8)?)?;
        Some(Added {
            id,
            entries: (0..words).map(|_| self.u64()).collect::<Option<_>>()?,
            servers: (0..servers).map(|_| self.server_counts()).collect::<Option<_>>()?,
            assigned: (0..servers).map(|_| self.assigned()).collect::<Option<_>>()?,
            resets: [self.u64()?, self.u64()?],
            ipv6: [self.u64()?, self.u64()?],
        })
    }

    fn server_counts(&mut self) -> Option<ServerCounts> {
        let (opened, mut ended) = (self.u64()?, [0; Ending::ALL.len()]);
        for times in &mut ended {
            *times = self.u64()?;
        }
        Some(ServerCounts { opened, ended, early: self.u64()? })
    }

    fn assigned(&mut self) -> Option<Assigned> {
        let weight = self.u16()?;
        let [down] = self.take()?;
        Some(Assigned { weight, is_down: down != 0 })
    }

    fn state(&mut self) -> Option<State> {
        let (address, port) = (self.u32()?, self.u16()?);
        let [protocol, scheduler] = self.take()?;
        let service = Service { address, port, protocol, scheduler, servers: self.u32()? };
        let (clock, mut servers) = (self.u32()?, [Server::default(); PLACES]);
        for server in &mut servers {
            let (address, port, weight) = (self.u32()?, self.u16()?, self.u16()?);
            *server = Server { address, port, weight, count: self.u32()? };
        }
        let (place, level) = (self.u64()?, self.u16()?);
        let (largest_weight, weight_divisor) = (0, 0);
        let read = State { service, clock, servers, place, level, largest_weight, weight_divisor };
        Some(read.with_largest_weight_and_divisor())
    }

    fn counters(&mut self, a_way: usize) -> Option<Counters> {
        let mut words = [0; COUNTERS];
        for word in words.chunks_mut(COUNTERS_A_WAY).flat_map(|way| &mut way[..a_way]) {
            *word = self.u64()?;
        }
        let packets = nidhaaguf::Counters::of_words(words);
        let (write_failures, idle_removed) = (self.u64()?, self.u64()?);
        Some(Counters { packets, write_failures, idle_removed, ..Counters::default() })
    }

    fn position(&mut self) -> Option<Position> {
        let (lines, lost, full) = (self.u64()?, self.u64()?, self.u64()? != 0);
        let (refused, refused_before, drained) = (self.u64()?, self.u64()?, self.u64()?);
        Some(Position { lines, lost, told: Told { full, refused, refused_before, drained } })
    }

    fn text(&mut self) -> Option<String> {
        let length = self.u32()? as usize;
        let (text, left) = self.0.split_at_checked(length)?;
        self.0 = left;
        String::from_utf8(text.to_vec()).ok()
    }

    fn u16(&mut self) -> Option<u16> {
        self.take().map(u16::from_le_bytes)
    }

    pub fn u32(&mut self) -> Option<u32> {
        self.take().map(u32::from_le_bytes)
    }

    fn u64(&mut self) -> Option<u64> {
        self.take().map(u64::from_le_bytes)
    }

    fn take<const N: usize>(&mut self) -> Option<[u8; N]> {
        let (taken, left) = self.0.split_first_chunk::<N>()?;
        self.0 = left;
        Some(*taken)
    }
}

/// What the layouts before the third had not.
struct Added {
    id: Id,
    entries: Vec<u64>,
    servers: Vec<ServerCounts>,
    assigned: Vec<Assigned>,
    resets: [u64; 2],
    ipv6: [u64; 2],
}

impl Added {
    /// In its place: of no connection it is known when it was opened, and no server is down.
    fn none(state: &State, row: &[u32], servers: usize) -> Added {
        let used = row.chunks(WORDS_PER_SLOT).filter(|slot| slot[0] != 0);
        let of_weight = |server: &Server| Assigned { weight: server.weight, is_down: false };
        Added {
            id: Id::new(),
            entries: vec![Entry::OF_UNKNOWN_OPENING; used.count()],
            servers: vec![ServerCounts::default(); servers],
            assigned: state.servers[..servers].iter().map(of_weight).collect(),
            resets: [0; 2],
            ipv6: [0; 2],
        }
    }
}
