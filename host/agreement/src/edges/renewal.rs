//! Edges of a TCP packet that meets a connection: a SYN renews one that both have finished.

use super::{Edge, Moment};
use crate::call::Call;
use crate::sides::{Reference, Side};
use nidhaaguf::Refusal;
use reference::connection::{idle_limit, BOTH_FINISHED};
use reference::data::TCP;
use reference::packets::{ACK, FIN, RST, SYN};
use reference::scheduler;
use reference::table::Slot;
use std::ops::RangeInclusive;

pub const EDGES: [Edge; 12] = [
    ("renewed in the same slot", |m| renewed(m, |old| !old.has_free_below())),
    ("renewed in a lower slot", |m| renewed(m, |old| old.has_free_below())),
    ("renewed in a full table", |m| renewed(m, |old| old.is_table_full())),
    ("renewed to another server", |m| renewed(m, |old| old.slot.server != old.moment.told.number)),
    ("renewed, lowered count decides", |m| renewed(m, |old| old.is_lowered_count_decisive())),
    ("renewed, client in two slots", |m| renewed(m, |old| old.moment.is_doubled())),
    ("renewed 119 s after its last", |m| renewed(m, |old| old.clock - old.slot.last_seen == 119)),
    ("opened 120 s after its last", |m| m.told.change == 1 && had_finished(m, 120)),
    ("14, both finished", |m| m.refusal() == Some(Refusal::NoWeight) && meeting(m).is_some()),
    ("SYN in phases 1 to 3", |m| kept(m, true, 1..=3, &[SYN])),
    ("SYN with ACK or FIN in phase 4", |m| kept(m, true, 4..=4, &[SYN | ACK, SYN | FIN])),
    ("server's SYN in phase 4", |m| kept(m, false, 4..=4, &[SYN])),
];

/// A TCP packet, and the connection that it met once the idle ones were removed.
struct Meeting<'a> {
    moment: &'a Moment<'a>,
    clock: u32,
    number: usize,
    slot: Slot,
}

fn meeting<'a>(moment: &'a Moment<'a>) -> Option<Meeting<'a>> {
    let clock = moment.accepted_clock()?;
    let protocol = moment.before.state.service.protocol;
    if moment.call.packet().is_empty() || protocol != TCP {
        return None;
    }
    let client = moment.client();
    let slots = (0..moment.before.slots()).map(|number| (number, moment.before.slot(number)));
    let mut live = slots.filter(|(_, slot)| is_live(slot, clock));
    let (number, slot) = live.find(|(_, slot)| (slot.address, slot.port) == client)?;
    Some(Meeting { moment, clock, number, slot })
}

/// Whether a slot of a sound TCP state is used, and not idle at an accepted clock.
fn is_live(slot: &Slot, clock: u32) -> bool {
    slot.is_used() && clock - slot.last_seen < idle_limit(TCP, slot.phase)
}

/// An opening that met a connection.
fn renewed(moment: &Moment, is_edge: fn(&Meeting) -> bool) -> bool {
    moment.told.change == 1 && meeting(moment).is_some_and(|old| is_edge(&old))
}

/// A packet with one of these flags that was kept in one of these phases.
fn kept(moment: &Moment, inbound: bool, phases: RangeInclusive<u32>, flags: &[u8]) -> bool {
    moment.told.change == 2
        && matches!(moment.call, Call::Inbound { .. }) == inbound
        && meeting(moment).is_some_and(|met| {
            let given = moment.left[moment.header() + 13] & (SYN | ACK | RST | FIN);
            phases.contains(&met.slot.phase) && flags.contains(&given)
        })
}

/// The client of an opening had a connection that both had finished, silent for so many seconds.
fn had_finished(moment: &Moment, silent: u32) -> bool {
    let clock = moment.accepted_clock();
    let client = moment.client();
    (0..moment.before.slots()).map(|number| moment.before.slot(number)).any(|slot| {
        slot.phase == BOTH_FINISHED
            && (slot.address, slot.port) == client
            && clock == slot.last_seen.checked_add(silent)
    })
}

impl Meeting<'_> {
    fn is_live(&self, number: usize) -> bool {
        is_live(&self.moment.before.slot(number), self.clock)
    }

    fn has_free_below(&self) -> bool {
        (0..self.number).any(|number| !self.is_live(number))
    }

    fn is_table_full(&self) -> bool {
        (0..self.moment.before.slots()).all(|number| self.is_live(number))
    }

    /// Before the old one was taken off, another server would have been picked.
    fn is_lowered_count_decisive(&self) -> bool {
        let mut ticked = self.moment.before.clone();
        let tick = Call::Tick { clock: self.clock };
        Reference.make(&tick, &mut ticked.state, &mut ticked.row, &mut []);
        let (early, _) = scheduler::pick(&ticked.state);
        early.0 as u32 != self.moment.told.number
    }
}
