//! Mistakes about a SYN on a connection that both have finished.

use crate::support::{is_found, make_picking};
use agreement::call::{Call, Told};
use agreement::sides::{Reference, Side};
use reference::data::{Client, LEAST_CONNECTION};
use reference::table::{self, Slot, SlotNumber, FREE};
use reference::{connection, header, refusal, scheduler, segment, State};

/// A finished connection that a SYN meets: its slot, and state and row once the clock is accepted.
struct Met {
    old: SlotNumber,
    state: State,
    row: Vec<u32>,
}

fn met(call: &Call, state: &State, row: &[u32]) -> Option<Met> {
    let Call::Inbound { packet, clock } = call else { return None };
    let (mut state, mut row) = (*state, row.to_vec());
    let ticked = Reference.make(&Call::Tick { clock: *clock }, &mut state, &mut row, &mut []);
    let protocol = state.service.protocol;
    let header = header::read(packet, protocol).ok().filter(|_| ticked.refusal == 0)?;
    let segment = segment::read(&packet[header.length..header.total], protocol).ok()?;
    let client = Client { address: header.source, port: segment.source };
    let old = table::find(&row, client)?;
    let renews = connection::renews(table::read(&row, old).phase, segment.flags);
    renews.then_some(Met { old, state, row })
}

/// The reference with a mistake made after each call that has met a finished connection.
struct AfterMeeting(fn(Met, Told, &mut State, &mut [u32]));

impl Side for AfterMeeting {
    fn make(&self, call: &Call, state: &mut State, row: &mut [u32], packet: &mut [u8]) -> Told {
        let met = met(call, state, row);
        let told = Reference.make(call, state, row, packet);
        if let Some(met) = met {
            (self.0)(met, told, state, row);
        }
        told
    }
}

#[test]
fn the_old_slot_taken_although_a_lower_one_is_free() {
    let complaint = is_found(
        &AfterMeeting(|met, told, _, row| {
            let lowest = table::lowest_free(&met.row).filter(|free| free.0 < met.old.0);
            if let (1, Some(new)) = (told.change, lowest) {
                let opened = table::read(row, new);
                table::write(row, met.old, opened);
                table::write(row, new, FREE);
            }
        }),
        2,
    );
    assert!(complaint.starts_with("row"), "{complaint}");
}

#[test]
fn the_old_one_taken_off_by_14() {
    let complaint = is_found(
        &AfterMeeting(|met, told, state, row| {
            if told.refusal == u32::from(refusal::NO_WEIGHT) {
                connection::take_off(state, row, met.old);
            }
        }),
        8,
    );
    assert!(complaint.starts_with("state: server"), "{complaint}");
}

#[test]
fn the_old_one_refreshed_by_14() {
    let complaint = is_found(
        &AfterMeeting(|met, told, state, row| {
            if told.refusal == u32::from(refusal::NO_WEIGHT) {
                let old = table::read(row, met.old);
                table::write(row, met.old, Slot { last_seen: state.clock, ..old });
            }
        }),
        // a setup, three packets that finish a connection, each weight set to 0, the SYN
        8,
    );
    assert!(complaint.starts_with("row"), "{complaint}");
}

/// Picks before the old connection is taken off.
struct EarlyPick;

impl Side for EarlyPick {
    fn make(&self, call: &Call, state: &mut State, row: &mut [u32], packet: &mut [u8]) -> Told {
        let met = met(call, state, row);
        let picks_by_count = |Met { state, .. }: &Met| {
            state.service.scheduler >= LEAST_CONNECTION && state.largest_weight > 0
        };
        match met.filter(picks_by_count) {
            Some(met) => {
                let (early, _) = scheduler::pick(&met.state);
                make_picking(early.0, call, state, row, packet)
            }
            None => Reference.make(call, state, row, packet),
        }
    }
}

#[test]
fn the_pick_before_the_old_one_is_taken_off() {
    let complaint = is_found(&EarlyPick, 6);
    assert!(complaint.starts_with("answer"), "{complaint}");
}

/// Looks for a free slot before the old connection is taken off.
struct EarlySearch;

impl Side for EarlySearch {
    fn make(&self, call: &Call, state: &mut State, row: &mut [u32], packet: &mut [u8]) -> Told {
        match met(call, state, row) {
            Some(met) if table::lowest_free(&met.row).is_none() => {
                *state = met.state;
                row.copy_from_slice(&met.row);
                Told { refusal: u32::from(refusal::TABLE_FULL), number: 0, change: 0 }
            }
            _ => Reference.make(call, state, row, packet),
        }
    }
}

#[test]
fn a_table_found_full_before_the_old_one_is_taken_off() {
    let complaint = is_found(&EarlySearch, 2);
    assert!(complaint.contains("refusal: 13"), "{complaint}");
}
