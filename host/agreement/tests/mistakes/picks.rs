//! Mistakes about 14, which comes before the pick, and about a pick that must come to the only server it may take.

use crate::support::{is_found, make_picking, refused, Made, Mistaken};
use agreement::call::{Call, Told};
use agreement::edges::is_last_of_ring;
use agreement::sides::{Reference, Side};
use reference::State;

/// What the reference makes of a call.
struct Due {
    told: Told,
    before: State,
    after: State,
}

impl Due {
    fn is_opening(&self, scheduler: u8) -> bool {
        self.told.change == 1 && self.before.service.scheduler == scheduler
    }

    /// The number that the ring has before the one that was picked, where that was its last.
    fn before_last(&self, scheduler: u8) -> Option<usize> {
        let n = self.before.service.servers;
        let is_last = self.is_opening(scheduler) && is_last_of_ring(&self.before, &self.after);
        is_last.then(|| ((self.told.number + n - 1) % n) as usize)
    }

    /// Server 0 of weight 0, where it is kept: told by its count and by the one that the picked server had.
    fn first_kept(&self, scheduler: u8, is_kept: fn(u32, u32) -> bool) -> Option<usize> {
        if !self.is_opening(scheduler) {
            return None;
        }
        let servers = &self.after.servers;
        let (first, picked) = (servers[0], servers[self.told.number as usize]);
        (first.weight == 0 && is_kept(first.count, picked.count - 1)).then_some(0)
    }
}

/// Opens on another server than is due, where one is named.
struct OtherPick(fn(&Due) -> Option<usize>);

impl Side for OtherPick {
    fn make(&self, call: &Call, state: &mut State, row: &mut [u32], packet: &mut [u8]) -> Told {
        let (before, mut after) = (*state, *state);
        let told = Reference.make(call, &mut after, &mut row.to_vec(), &mut packet.to_vec());
        match (self.0)(&Due { told, before, after }) {
            Some(server) => make_picking(server, call, state, row, packet),
            None => Reference.make(call, state, row, packet),
        }
    }
}

#[test]
fn all_weights_0_and_opened_on_server_0() {
    let complaint = is_found(&OtherPick(|due| (due.told.refusal == 14).then_some(0)), 2);
    let opened = Told { refusal: 0, number: 0, change: 1 };
    let wanted = format!("answer {opened:?}, not {:?}", refused(14));
    assert!(complaint.starts_with(&wanted), "{complaint}");
}

#[test]
fn told_14_where_the_table_is_full_too() {
    let mistaken = Mistaken(|made, told| {
        let is_such = told.refusal == 13 && made.state.largest_weight == 0;
        if is_such {
            refused(14)
        } else {
            told
        }
    });
    let complaint = is_found(&mistaken, 2);
    assert_eq!(complaint, format!("answer {:?}, not {:?}", refused(14), refused(13)));
}

/// The walk goes on to the next number before 14 is tested.
fn step_before_14<const SCHEDULER: u8>(made: &mut Made, told: Told) -> Told {
    if told.refusal == 14 && made.state.service.scheduler == SCHEDULER {
        made.step_on();
    }
    told
}

fn is_walk_found(side: &dyn Side) {
    // a setup, a weight set to 0, a packet that would open
    let complaint = is_found(side, 3);
    assert!(complaint.starts_with("state: Walk") && !complaint.contains(';'), "{complaint}");
}

#[test]
fn the_walk_of_scheduler_1_moved_before_14() {
    is_walk_found(&Mistaken(step_before_14::<1>));
}

#[test]
fn the_walk_of_scheduler_2_moved_before_14() {
    is_walk_found(&Mistaken(step_before_14::<2>));
}

fn is_pick_found(other: fn(&Due) -> Option<usize>) {
    let complaint = is_found(&OtherPick(other), 3);
    assert!(complaint.starts_with("answer Told { refusal: 0, number: "), "{complaint}");
}

#[test]
fn the_ring_of_scheduler_1_passes_one_fewer() {
    is_pick_found(|due| due.before_last(1));
}

#[test]
fn the_ring_of_scheduler_2_passes_one_fewer() {
    is_pick_found(|due| due.before_last(2));
}

#[test]
fn a_first_server_of_weight_0_kept_by_scheduler_3() {
    is_pick_found(|due| due.first_kept(3, |first, picked| first <= picked));
}

#[test]
fn a_first_server_of_weight_0_kept_by_scheduler_4() {
    // no cross product is smaller than that of a count of 0
    is_pick_found(|due| due.first_kept(4, |first, _| first == 0));
}
