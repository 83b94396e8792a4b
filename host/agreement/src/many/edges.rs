//! Which edges of bursts and serves a run has met.

use super::call::{Burst, Many, Serve};
use super::edges_of_serves::SERVES;
use super::singly::{Singly, Step, Way};
use super::wanted::Wanted;
use crate::counted::Counted;

/// A burst or serve that was made, and the single calls that it stands for.
pub struct Moment<'a> {
    pub many: &'a Many,
    pub wanted: &'a Wanted,
}

pub(super) type Edge<T> = (&'static str, fn(&Moment, &T) -> bool);

/// Of the single calls, in bursts as in serves.
const BOTH: [Edge<Singly>; 14] = [
    ("0 packets", |_, all| all.tick.refusal == 0 && all.steps.is_empty()),
    ("1 packet", |_, all| all.steps.len() == 1),
    ("2 packets", |_, all| all.steps.len() == 2),
    ("7 packets", |_, all| all.steps.len() == 7),
    ("64 packets", |_, all| all.steps.len() == 64),
    ("300 packets", |_, all| all.steps.len() == 300),
    ("both ways in one", |_, all| all.has(|step| step.way == Way::Inbound) && all.has(is_out)),
    ("opened, ended, opened again", |_, all| all.has_changes(&[1, 3, 1])),
    ("opened, both finished, opened", |_, all| all.has_changes(&[1, 1])),
    ("table gets full", |_, all| all.comes_before(|step| step.told.change == 1, is_full)),
    ("removal by the tick", |_, all| all.tick.refusal == 0 && all.tick.number > 0),
    ("refused, then accepted", |_, all| all.comes_before(|step| !is_accepted(step), is_accepted)),
    ("20, then accepted", |_, all| all.comes_before(is_bad_checksum, is_accepted)),
    ("20 both ways", |_, all| {
        [true, false]
            .iter()
            .all(|&out| all.has(|step| is_bad_checksum(step) && is_out(step) == out))
    }),
];

const BURSTS: [Edge<Burst>; 14] = [
    ("length 0", |m, _| m.has_length(|length| length == 0)),
    ("length 19", |m, _| m.has_length(|length| length == 19)),
    ("length 20", |m, _| m.has_length(|length| length == 20)),
    ("length 2,048", |m, _| m.has_length(|length| length == 2_048)),
    ("length above 2,048", |m, _| m.has_length(|length| length > 2_048)),
    ("length 4,294,967,295", |m, _| m.has_length(|length| length == u32::MAX)),
    ("length above 2,048, accepted", |m, _| m.is_long_one_accepted()),
    ("fills its place, accepted", |m, _| {
        m.wanted.singly.has(|step| is_accepted(step) && step.came[2..4] == [8, 0])
    }),
    ("more places than records", |_, burst| burst.places > 0),
    ("more records than places", |_, burst| burst.records > 0),
    ("a part of a place", |_, burst| burst.bytes > 0),
    ("a part of a record", |_, burst| burst.words > 0),
    ("part of a place, whole record", |_, burst| burst.bytes > 0 && burst.records > 0),
    ("whole place, part of a record", |_, burst| burst.places > 0 && burst.words > 0),
];

pub(super) fn is_accepted(step: &Step) -> bool {
    step.told.refusal == 0
}

fn is_full(step: &Step) -> bool {
    step.told.refusal == 13
}

fn is_bad_checksum(step: &Step) -> bool {
    step.told.refusal == 20
}

fn is_out(step: &Step) -> bool {
    step.way == Way::Outbound
}

fn names<T>(own: &'static [Edge<T>]) -> Counted {
    let both = BOTH.iter().map(|(name, _)| *name);
    Counted::new(both.chain(own.iter().map(|(name, _)| *name)))
}

pub fn of_bursts() -> Counted {
    names(&BURSTS)
}

pub fn of_serves() -> Counted {
    names(&SERVES)
}

impl Singly {
    pub(super) fn has(&self, is_one: impl Fn(&Step) -> bool) -> bool {
        self.steps.iter().any(is_one)
    }

    /// One such packet, and later one of the other sort.
    fn comes_before(&self, first: fn(&Step) -> bool, second: fn(&Step) -> bool) -> bool {
        self.steps.iter().skip_while(|step| !first(step)).skip(1).any(second)
    }

    /// Some client's openings and endings begin so.
    fn has_changes(&self, changes: &[u32]) -> bool {
        let opened = self.steps.iter().filter(|step| step.told.change == 1);
        opened.filter_map(client_of).any(|client| {
            let own = self.steps.iter().filter(|step| client_of(step) == Some(client));
            let told = own.map(|step| step.told.change).filter(|&change| change != 2);
            told.take(changes.len()).eq(changes.iter().copied())
        })
    }
}

/// Address and port of an accepted packet's client.
fn client_of(step: &Step) -> Option<(&[u8], &[u8])> {
    let (address, port) = if is_out(step) { (16, 2) } else { (12, 0) };
    let port = usize::from(step.came.first()? & 15) * 4 + port;
    is_accepted(step).then(|| (&step.came[address..address + 4], &step.came[port..port + 2]))
}

impl Moment<'_> {
    pub fn edges_of_burst<'a>(&'a self, burst: &'a Burst) -> impl Iterator<Item = bool> + 'a {
        self.edges_of_both().chain(BURSTS.iter().map(|(_, is_met)| is_met(self, burst)))
    }

    pub fn edges_of_serve<'a>(&'a self, serve: &'a Serve) -> impl Iterator<Item = bool> + 'a {
        self.edges_of_both().chain(SERVES.iter().map(|(_, is_met)| is_met(self, serve)))
    }

    fn edges_of_both(&self) -> impl Iterator<Item = bool> + '_ {
        BOTH.iter().map(|(_, is_met)| is_met(self, &self.wanted.singly))
    }

    /// Some taken packet's record tells such a length.
    fn has_length(&self, is_such: fn(u32) -> bool) -> bool {
        let is_taken = self.wanted.singly.tick.refusal == 0;
        is_taken && self.many.packets.iter().any(|packet| is_such(packet.length))
    }

    fn is_long_one_accepted(&self) -> bool {
        let mut both = self.many.packets.iter().zip(&self.wanted.singly.steps);
        both.any(|(packet, step)| packet.length > 2_048 && is_accepted(step))
    }
}
