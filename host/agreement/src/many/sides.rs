//! The library's burst and serve behind one form, as wrong ones have it, too.

use crate::call::Told;
use crate::sides::{from_library, to_library, Library};
use nidhaaguf::raw::{self, COUNTERS};
use reference::State;
use std::os::fd::AsFd;
use std::os::unix::net::UnixDatagram;

/// What a burst is lent: all of it is as the burst left it on return.
pub struct LentToBurst<'a> {
    pub state: &'a mut State,
    pub row: &'a mut [u32],
    pub packets: &'a mut [u8],
    pub records: &'a mut [u32],
    pub clock: u32,
}

/// What a serve is lent, likewise.
pub struct LentToServe<'a> {
    pub descriptor: &'a UnixDatagram,
    pub state: &'a mut State,
    pub row: &'a mut [u32],
    pub buffer: &'a mut [u8],
    pub records: &'a mut [u32],
    pub counters: &'a mut [u64; COUNTERS],
    pub clock: u32,
    pub most: u32,
    pub stop: u32,
}

/// What a burst or serve tells beside the state; a burst has no packets taken or unsent.
#[derive(Clone, Copy, Debug, Default, PartialEq, Eq)]
pub struct ToldOfMany {
    pub refusal: u32,
    pub removed: u32,
    pub change: u32,
    pub taken: u32,
    pub unsent: u32,
}

/// Makes bursts and serves.
pub trait ManySide {
    fn burst(&self, lent: LentToBurst) -> ToldOfMany;
    fn serve(&self, lent: LentToServe) -> ToldOfMany;
}

impl ToldOfMany {
    /// What a tick tells.
    pub fn of_tick(told: Told) -> ToldOfMany {
        let Told { refusal, number, change } = told;
        ToldOfMany { refusal, removed: number, change, ..ToldOfMany::default() }
    }
}

impl ManySide for Library {
    fn burst(&self, lent: LentToBurst) -> ToldOfMany {
        let LentToBurst { state, row, packets, records, clock } = lent;
        let answer = raw::burst(to_library(state), row, packets, records, clock);
        *state = from_library(&answer.state);
        let raw::Answer { refusal, number, change, .. } = answer;
        ToldOfMany::of_tick(Told { refusal, number, change })
    }

    fn serve(&self, lent: LentToServe) -> ToldOfMany {
        let LentToServe { descriptor, state, row, buffer, records, counters, .. } = lent;
        let (descriptor, handed) = (descriptor.as_fd(), to_library(state));
        let parts = raw::LentToServe { row, buffer, records, counters };
        let served = raw::serve(descriptor, handed, parts, lent.clock, lent.most, lent.stop);
        *state = from_library(&served.state);
        let raw::Served { refusal, removed, taken, unsent, .. } = served;
        ToldOfMany { refusal, removed, change: 0, taken, unsent }
    }
}
