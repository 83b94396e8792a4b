//! What a burst or serve has left, with guards around all that it was lent.

use super::call::{Burst, Form, Many, Serve, FILLED_BYTE, FILLED_WORD};
use super::other_end::Seen;
use super::sides::{LentToBurst, LentToServe, ManySide, ToldOfMany};
use crate::compare::{items_difference, state_difference};
use crate::lent::Lent;
use crate::world::World;
use reference::State;
use std::io::{Error, ErrorKind};

/// What it has left. What is None was written past its end.
#[derive(Debug, PartialEq, Eq)]
pub struct Left {
    pub told: ToldOfMany,
    pub state: State,
    pub row: Option<Vec<u32>>,
    /// A burst's packets, or a serve's buffer.
    pub bytes: Option<Vec<u8>>,
    pub records: Option<Vec<u32>>,
    /// A serve's.
    pub counters: Option<Vec<u64>>,
    pub seen: Seen,
    /// Whether errno says that a read would wait: a serve that ended for another reason has made no such read.
    pub would_wait: bool,
}

/// Makes it on a side.
pub fn make(side: &dyn ManySide, many: &Many, world: &World) -> Left {
    match many.form {
        Form::Burst(burst) => make_burst(side, many, burst, world),
        Form::Serve(serve) => make_serve(side, many, serve, world),
    }
}

fn lent_row(world: &World) -> Lent<u32> {
    Lent::new(&world.row, 16, 0xA5A5_A5A5)
}

fn make_burst(side: &dyn ManySide, many: &Many, burst: Burst, world: &World) -> Left {
    let mut state = world.state;
    let mut row = lent_row(world);
    // packets begin at any address
    let first = 16 + many.packets.len() % 8;
    let mut packets = Lent::new(&burst.lent_bytes(&many.packets), first, 0xA5);
    let mut records = Lent::new(&burst.lent_words(&many.packets), 16, 0xA5A5_A5A5);
    let told = side.burst(LentToBurst {
        state: &mut state,
        row: row.part(),
        packets: packets.part(),
        records: records.part(),
        clock: many.clock,
    });
    let (row, bytes, records) = (row.back(), packets.back(), records.back());
    let (counters, seen) = (Some(Vec::new()), Seen::default());
    Left { told, state, row, bytes, records, counters, seen, would_wait: false }
}

fn make_serve(side: &dyn ManySide, many: &Many, serve: Serve, world: &World) -> Left {
    let mut state = world.state;
    let mut row = lent_row(world);
    let mut buffer = Lent::filled(serve.buffer, FILLED_BYTE, 16 + serve.buffer % 8, 0xA5);
    let mut records = Lent::filled(serve.words, FILLED_WORD, 16, 0xA5A5_A5A5);
    let mut counters = Lent::new(&serve.lent_counters(), 16, 0xA5A5_A5A5_A5A5_A5A5);
    let packets = many.packets.iter().map(|packet| packet.bytes.clone()).collect();
    let ((told, would_wait), seen) = serve.other_end.serve(packets, |descriptor| {
        set_other_errno();
        let told = side.serve(LentToServe {
            descriptor,
            state: &mut state,
            row: row.part(),
            buffer: buffer.part(),
            records: records.part(),
            counters: counters.part().try_into().expect("as many as were lent"),
            clock: many.clock,
            most: serve.most,
            stop: serve.stop,
        });
        (told, Error::last_os_error().kind() == ErrorKind::WouldBlock)
    });
    let (row, bytes, records) = (row.back(), buffer.back(), records.back());
    Left { told, state, row, bytes, records, counters: counters.back(), seen, would_wait }
}

/// A call that fails otherwise than by waiting: what errno says later is not of a read before.
fn set_other_errno() {
    std::fs::symlink_metadata("").expect_err("a file without a name");
}

impl Left {
    /// Where it differs from what was wanted; empty if nowhere.
    pub fn difference(&self, wanted: &Left) -> String {
        let mut parts = Vec::new();
        if self.told != wanted.told {
            parts.push(format!("answer {:?}, not {:?}", self.told, wanted.told));
        }
        if self.state != wanted.state {
            parts.push(state_difference(&self.state, &wanted.state));
        }
        parts.extend(named("row", &self.row, &wanted.row));
        parts.extend(named("bytes", &self.bytes, &wanted.bytes));
        parts.extend(named("records", &self.records, &wanted.records));
        parts.extend(named("counters", &self.counters, &wanted.counters));
        parts.extend(packets_difference("written", &self.seen.written, &wanted.seen.written));
        parts.extend(packets_difference("unread", &self.seen.unread, &wanted.seen.unread));
        if self.would_wait != wanted.would_wait {
            parts.push("errno is not that of the last read".into());
        }
        parts.join("; ")
    }
}

fn named<T: PartialEq + std::fmt::Debug>(
    name: &str,
    left: &Option<Vec<T>>,
    wanted: &Option<Vec<T>>,
) -> Option<String> {
    (left != wanted).then(|| items_difference(name, left, wanted))
}

fn packets_difference(name: &str, left: &[Vec<u8>], wanted: &[Vec<u8>]) -> Option<String> {
    let (lengths, same) = ((left.len(), wanted.len()), left == wanted);
    let first = left.iter().zip(wanted).position(|(left, wanted)| left != wanted);
    (!same).then(|| {
        let at = first.unwrap_or(lengths.0.min(lengths.1));
        format!("{name}: {} packets, not {}; other from packet {at} on", lengths.0, lengths.1)
    })
}
