//! A director's fields, written one after another.

use crate::book::ServerCounts;
use crate::clock::Clock;
use crate::counters::Counters;
use crate::handover::snapshot::Snapshot;
use crate::instance::Assigned;
use crate::log::position::{Position, Told};
use nidhaaguf::raw::{Server, Service, State};

/// It takes each struct apart, so that a new field doesn't compile before it has its place, and the layout a new number; or is
/// left out because it follows from others.
pub struct Writer(pub Vec<u8>);

impl Writer {
    pub fn snapshot(&mut self, snapshot: &Snapshot) {
        let Snapshot {
            boot,
            clock,
            state,
            row,
            configured,
            counters,
            weights_set,
            log,
            id,
            entries,
            servers,
            assigned,
        } = snapshot;
        let Clock { zero, speed } = clock;
        self.text(boot);
        self.u64(zero.as_secs());
        self.u32(zero.subsec_nanos());
        self.u32(*speed);
        self.state(state);
        self.u32(row.len() as u32);
        row.iter().for_each(|&word| self.u32(word));
        configured.iter().for_each(|&weight| self.u16(weight));
        let added = self.counters(counters);
        self.u64(*weights_set);
        self.position(log);
        // from here on the layouts before had nothing
        self.u64(id.number());
        self.u32(entries.len() as u32);
        entries.iter().for_each(|&word| self.u64(word));
        servers.iter().for_each(|counts| self.server_counts(counts));
        assigned.iter().for_each(|assigned| self.assigned(assigned));
        added.iter().for_each(|&number| self.u64(number));
    }

    fn server_counts(&mut self, counts: &ServerCounts) {
        let ServerCounts { opened, ended, early } = counts;
        self.u64(*opened);
        ended.iter().for_each(|&times| self.u64(times));
        self.u64(*early);
    }

    fn assigned(&mut self, assigned: &Assigned) {
        let Assigned { weight, is_down } = *assigned;
        self.u16(weight);
        self.0.push(u8::from(is_down));
    }

    fn state(&mut self, state: &State) {
        let State {
            service,
            clock,
            servers: places,
            place,
            level,
            // not written: these two follow from the weights
            largest_weight: _,
            weight_divisor: _,
        } = *state;
        let Service { address, port, protocol, scheduler, servers } = service;
        self.u32(address);
        self.u16(port);
        self.0.extend([protocol, scheduler]);
        self.u32(servers);
        self.u32(clock);
        for Server { address, port, weight, count } in places {
            self.u32(address);
            self.u16(port);
            self.u16(weight);
            self.u32(count);
        }
        self.u64(place);
        self.u16(level);
    }

    /// Gives those that have their place at the end.
    fn counters(&mut self, counters: &Counters) -> [u64; 4] {
        let Counters { packets, write_failures, idle_removed, resets_sent, resets_unsent, ipv6 } =
            counters;
        packets.words().iter().for_each(|&count| self.u64(count));
        self.u64(*write_failures);
        self.u64(*idle_removed);
        let [inbound, outbound] = *ipv6;
        [*resets_sent, *resets_unsent, inbound, outbound]
    }

    fn position(&mut self, position: &Position) {
        let Position { lines, lost, told } = position;
        let Told { full, refused, refused_before, drained } = *told;
        let numbers = [*lines, *lost, full.into(), refused, refused_before, drained];
        numbers.iter().for_each(|&number| self.u64(number));
    }

    fn text(&mut self, text: &str) {
        self.u32(text.len() as u32);
        self.0.extend(text.bytes());
    }

    fn u16(&mut self, number: u16) {
        self.0.extend(number.to_le_bytes());
    }

    pub fn u32(&mut self, number: u32) {
        self.0.extend(number.to_le_bytes());
    }

    fn u64(&mut self, number: u64) {
        self.0.extend(number.to_le_bytes());
    }
}
