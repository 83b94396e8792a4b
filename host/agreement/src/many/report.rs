//! What is printed of a run of bursts and serves.

use super::call::Many;
use super::run::{replay, Met};
use super::sides::ManySide;
use crate::report::{complaints_of, disagreement, tables_of};
use crate::run::Failure;
use crate::shorten::shorten;

/// Everything that a run has met.
pub fn tables(met: &Met) -> String {
    let mut text = String::new();
    for (name, met) in [("bursts", &met.bursts), ("serves", &met.serves)] {
        text += &format!("{} {name}, {} packets\n", met.calls, met.packets);
        text += &tables_of(&met.tally, &met.edges, &met.broken);
    }
    text
}

/// What a run should have met more often.
pub fn complaints(met: &Met) -> Vec<String> {
    let mut all = Vec::new();
    for (name, met) in [("bursts", &met.bursts), ("serves", &met.serves)] {
        let complaints = complaints_of(&met.tally, &[&met.edges, &met.broken]);
        all.extend(complaints.into_iter().map(|complaint| format!("{name}: {complaint}")));
    }
    all
}

/// What can be left out of a list: a call with its packets, or one packet.
fn units(calls: &[Many]) -> Vec<(usize, Option<usize>)> {
    let of_call = |(call, many): (usize, &Many)| {
        let packets = (0..many.packets.len()).map(Some);
        std::iter::once(None).chain(packets).map(|packet| (call, packet)).collect::<Vec<_>>()
    };
    calls.iter().enumerate().flat_map(of_call).collect()
}

/// How many there are.
pub fn units_of(calls: &[Many]) -> usize {
    units(calls).len()
}

/// The list of these units, in order; a packet whose call is left out is left out, too.
pub fn kept(calls: &[Many], places: &[usize]) -> Vec<Many> {
    let units = units(calls);
    let mut kept: Vec<(usize, Vec<usize>)> = Vec::new();
    for &place in places {
        match (units[place], kept.last_mut()) {
            ((call, None), _) => kept.push((call, Vec::new())),
            ((call, Some(packet)), Some((last, packets))) if *last == call => packets.push(packet),
            _ => {}
        }
    }
    kept.iter().map(|(call, packets)| calls[*call].with(packets)).collect()
}

/// The places of a failure's units without which it doesn't fail.
pub fn shortened(side: &dyn ManySide, failure: &Failure<Many>) -> Vec<usize> {
    let all = (0..units_of(&failure.calls)).collect();
    shorten(all, |places| replay(side, &failure.first, &kept(&failure.calls, places)).is_some())
}

/// A failure, shortened, with the command that replays it.
pub fn failure(side: &dyn ManySide, failure: &Failure<Many>) -> String {
    let places = shortened(side, failure);
    let calls = kept(&failure.calls, &places);
    let complaint = replay(side, &failure.first, &calls);
    let lines = calls.iter().map(|many| format!("{many:?}")).collect();
    disagreement(failure, complaint, "many", &places, lines)
}
