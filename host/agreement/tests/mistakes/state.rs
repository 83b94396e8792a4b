//! Mistakes in counts, clocks and the walk, and in what is judged.

use crate::support::{is_found, Mistaken};
use agreement::call::{Call, Told};
use agreement::sides::{Reference, Side};
use reference::{Server, State};

#[test]
fn a_count_lowered_on_fin() {
    let complaint = is_found(
        &Mistaken(|made, told| {
            if told.change == 2 && made.is_tcp() && made.packet[made.header() + 13] & 1 == 1 {
                made.state.servers[told.number as usize].count -= 1;
            }
            told
        }),
        2,
    );
    assert!(complaint.contains("count"), "{complaint}");
}

#[test]
fn the_walk_moved_before_the_table_is_found_full() {
    is_found(
        &Mistaken(|made, told| {
            if told.refusal == 13 && made.state.service.scheduler == 1 {
                made.step_on();
            }
            told
        }),
        4,
    );
}

#[test]
fn refusal_12_forgets_the_clock() {
    is_found(
        &Mistaken(|made, told| {
            if told.refusal == 12 {
                made.state.clock = made.before.clock;
            }
            told
        }),
        2,
    );
}

#[test]
fn an_equal_weight_restarts_the_walk() {
    is_found(
        &Mistaken(|made, told| {
            let weight = matches!(made.call, Call::SetWeight { .. });
            if weight && told.refusal == 0 && made.state.service.scheduler == 2 {
                (made.state.walk.place, made.state.walk.level) = (-1, 0);
            }
            told
        }),
        5,
    );
}

#[test]
fn an_invented_tick_number() {
    is_found(
        &Mistaken(|made, told| match made.call {
            Call::Tick { .. } if told.refusal == 0 => Told { number: 0, ..told },
            _ => told,
        }),
        3,
    );
}

#[test]
fn last_seen_not_set_by_a_server() {
    is_found(
        &Mistaken(|made, told| {
            if let (Call::Outbound { .. }, 2) = (made.call, told.change) {
                let clock = made.state.clock;
                let seen =
                    made.row.chunks_exact_mut(5).find(|slot| slot[0] != 0 && slot[4] == clock);
                seen.into_iter().for_each(|slot| slot[4] = slot[4].saturating_sub(1));
            }
            told
        }),
        3,
    );
}

/// Ticks that remove a second too late.
struct LateTick;

impl Side for LateTick {
    fn make(&self, call: &Call, state: &mut State, row: &mut [u32], packet: &mut [u8]) -> Told {
        match *call {
            Call::Tick { clock } if clock > state.clock => {
                let told = Reference.make(&Call::Tick { clock: clock - 1 }, state, row, packet);
                if told.refusal == 0 {
                    state.clock = clock;
                }
                told
            }
            _ => Reference.make(call, state, row, packet),
        }
    }
}

#[test]
fn idle_a_second_too_late() {
    is_found(&LateTick, 4);
}

/// Doesn't look past the last server.
struct Careless;

impl Side for Careless {
    fn make(&self, call: &Call, state: &mut State, row: &mut [u32], packet: &mut [u8]) -> Told {
        let used = state.used_servers().len();
        let past = state.servers;
        state.servers[used..].fill(Server::default());
        let told = Reference.make(call, state, row, packet);
        if !matches!(call, Call::SetUp { .. }) || told.refusal != 0 {
            state.servers[used..].copy_from_slice(&past[used..]);
        }
        told
    }
}

#[test]
fn unused_places_not_judged() {
    is_found(&Careless, 1);
}

/// Refuses everything.
struct Refuser;

impl Side for Refuser {
    fn make(&self, _: &Call, _: &mut State, _: &mut [u32], _: &mut [u8]) -> Told {
        Told { refusal: 1, number: 0, change: 0 }
    }
}

#[test]
fn refusing_everything() {
    is_found(&Refuser, 1);
}
