//! Which edges a run has met, so that a generator that has lost one is seen.

mod checksum;
mod picks;
mod renewal;
mod weights;

pub use picks::is_last_of_ring;

use crate::call::{Call, Told};
use crate::counted::Counted;
use crate::world::World;
use nidhaaguf::Refusal;
use reference::connection::idle_limit;
use reference::data::UDP;

/// A call that was made: what it was handed and what it left.
pub struct Moment<'a> {
    pub before: &'a World,
    pub call: &'a Call,
    pub told: Told,
    pub left: &'a [u8],
    pub after: &'a World,
}

type Edge = (&'static str, fn(&Moment) -> bool);

// Header and TCP checksums can't leave as FFFF: equation 3 gives it only where the new address is 0.
const EDGES: [Edge; 38] = [
    ("UDP 1 s before idle", |m| m.idle_less_limit(300, -1)),
    ("UDP just idle (300)", |m| m.idle_less_limit(300, 0)),
    ("UDP 1 s past idle", |m| m.idle_less_limit(300, 1)),
    ("TCP 1 s before idle", |m| m.idle_less_limit(900, -1)),
    ("TCP just idle (900)", |m| m.idle_less_limit(900, 0)),
    ("TCP 1 s past idle", |m| m.idle_less_limit(900, 1)),
    ("phase 4 1 s before idle", |m| m.idle_less_limit(120, -1)),
    ("phase 4 just idle (120)", |m| m.idle_less_limit(120, 0)),
    ("phase 4 1 s past idle", |m| m.idle_less_limit(120, 1)),
    ("clock 4,294,967,295", |m| m.accepted_clock() == Some(u32::MAX)),
    ("header checksum came 0", |m| m.passed() && m.call.packet()[10..12] == [0, 0]),
    ("header checksum came FFFF", |m| m.passed() && m.call.packet()[10..12] == [255, 255]),
    ("header checksum left 0", |m| m.passed() && m.left[10..12] == [0, 0]),
    ("TCP checksum came 0", |m| m.sum(6, true) == Some(0)),
    ("TCP checksum came FFFF", |m| m.sum(6, true) == Some(0xFFFF)),
    ("TCP checksum left 0", |m| m.sum(6, false) == Some(0)),
    ("UDP checksum 0 stays", |m| m.sum(17, true) == Some(0)),
    ("UDP checksum came FFFF", |m| m.sum(17, true) == Some(0xFFFF)),
    ("UDP checksum left FFFF", |m| m.sum(17, false) == Some(0xFFFF)),
    ("IP options, passed", |m| m.passed() && m.left[0] > 0x45),
    ("TCP options, passed", |m| m.sum(6, true).is_some() && m.left[m.header() + 12] >= 0x60),
    ("trailing bytes, passed", |m| m.passed() && m.total() < m.left.len()),
    ("packet of 60,000 bytes, passed", |m| m.passed() && m.total() > 60_000),
    ("client 0.0.0.0:0", |m| m.passed() && m.has_client(0, 0)),
    ("client 255.255.255.255:65535", |m| m.passed() && m.has_client(u32::MAX, 0xFFFF)),
    ("client in two slots", |m| m.passed() && m.is_doubled()),
    ("opened, scheduler 1", |m| m.opened(1)),
    ("opened, scheduler 2", |m| m.opened(2)),
    ("opened, scheduler 3", |m| m.opened(3)),
    ("opened, scheduler 4", |m| m.opened(4)),
    ("opened, weights 0 and 65,535", |m| m.told.change == 1 && m.has_both_weights()),
    ("passed, one slot", |m| m.passed() && m.before.slots() == 1),
    ("passed, 4,096 slots", |m| m.passed() && m.before.slots() == 4_096),
    ("table of 4,096 full", |m| m.is_full() && m.before.slots() == 4_096),
    ("passed, one server", |m| m.passed() && m.before.state.service.servers == 1),
    ("passed, 64 servers", |m| m.passed() && m.before.state.service.servers == 64),
    ("table full, all weights 0", |m| m.is_full() && m.is_weightless()),
    ("weight set to itself", |m| m.sets_equal_weight()),
];

impl Moment<'_> {
    /// Which edges it meets.
    pub fn edges(&self) -> impl Iterator<Item = bool> + '_ {
        all().map(|(_, is_met)| is_met(self))
    }

    fn passed(&self) -> bool {
        self.told.change != 0
    }

    fn opened(&self, scheduler: u8) -> bool {
        self.told.change == 1 && self.before.state.service.scheduler == scheduler
    }

    fn refusal(&self) -> Option<Refusal> {
        Refusal::of_number(self.told.refusal)
    }

    fn is_full(&self) -> bool {
        self.refusal() == Some(Refusal::TableFull)
    }

    fn accepted_clock(&self) -> Option<u32> {
        self.call.clock().filter(|_| self.refusal().is_none_or(Refusal::keeps_clock))
    }

    /// Some slot of this limit is so many seconds past it at the call's clock.
    fn idle_less_limit(&self, limit: u32, past: i64) -> bool {
        let Some(clock) = self.accepted_clock() else { return false };
        let wanted = i64::from(limit) + past;
        let protocol = self.before.state.service.protocol;
        self.before.row.chunks_exact(5).any(|slot| {
            slot[0] != 0
                && i64::from(clock) - i64::from(slot[4]) == wanted
                && idle_limit(protocol, slot[0]) == limit
        })
    }

    fn header(&self) -> usize {
        usize::from(self.left[0] & 15) * 4
    }

    fn total(&self) -> usize {
        usize::from(self.left[2]) << 8 | usize::from(self.left[3])
    }

    /// The transport checksum of a packet of this protocol that passed, as it came or as it left.
    fn sum(&self, protocol: u8, came: bool) -> Option<u16> {
        if !self.passed() || self.left[9] != protocol {
            return None;
        }
        let at = self.header() + if protocol == UDP { 6 } else { 16 };
        let bytes = if came { self.call.packet() } else { self.left };
        Some(u16::from_be_bytes([bytes[at], bytes[at + 1]]))
    }

    /// Client address and port of a packet that was not refused before 12.
    fn client(&self) -> (u32, u32) {
        let inbound = matches!(self.call, Call::Inbound { .. });
        let (address, port) = if inbound { (12, 0) } else { (16, 2) };
        let number = |bytes: &[u8]| bytes.iter().fold(0, |sum, &b| sum << 8 | u32::from(b));
        let port = self.header() + port;
        (number(&self.left[address..address + 4]), number(&self.left[port..port + 2]))
    }

    fn has_client(&self, address: u32, port: u32) -> bool {
        self.client() == (address, port)
    }

    fn is_doubled(&self) -> bool {
        let (address, port) = self.client();
        let slots = self.before.row.chunks_exact(5);
        slots.filter(|s| s[0] != 0 && s[1] == address && s[2] == port).count() > 1
    }

    fn has_both_weights(&self) -> bool {
        let has = |wanted| self.before.state.weights().any(|weight| weight == wanted);
        has(0) && has(65_535)
    }

    fn is_weightless(&self) -> bool {
        self.before.state.weights().all(|weight| weight == 0)
    }

    fn sets_equal_weight(&self) -> bool {
        match *self.call {
            Call::SetWeight { number, weight } if self.told.refusal == 0 => {
                self.before.state.servers[number as usize].weight == weight
            }
            _ => false,
        }
    }
}

/// All edges of single calls.
fn all() -> impl Iterator<Item = &'static Edge> {
    let of_files = [&EDGES[..], &renewal::EDGES, &checksum::EDGES, &weights::EDGES, &picks::EDGES];
    of_files.into_iter().flatten()
}

/// The edges of single calls, none met.
pub fn of_calls() -> Counted {
    Counted::new(all().map(|(name, _)| *name))
}
