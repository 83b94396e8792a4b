//! What is printed of a run.

use crate::call::Call;
use crate::case::Kind;
use crate::counted::Counted;
use crate::run::{Failure, Met};
use crate::shorten::{replay, shorten};
use crate::sides::Side;
use crate::tally::Tally;
use crate::worlds::breaks::BREAKS;

/// Everything that a run has met.
pub fn tables(met: &Met) -> String {
    tables_of(&met.tally, &met.edges, &met.broken)
}

pub(crate) fn tables_of(tally: &Tally, edges: &Counted, broken: &Counted) -> String {
    format!("{tally}\n{edges}\n15, by the rule that was broken\n{broken}\n")
}

/// What a run should have met more often.
pub fn complaints(met: &Met) -> Vec<String> {
    complaints_of(&met.tally, &[&met.edges, &met.broken])
}

pub(crate) fn complaints_of(tally: &Tally, all_counted: &[&Counted]) -> Vec<String> {
    let least = tally.least_of_edges();
    let missed = all_counted.iter().flat_map(|counted| counted.missed(least));
    tally.complaints().into_iter().chain(missed).collect()
}

/// A failure, shortened, with the command that replays it.
pub fn failure(side: &dyn Side, failure: &Failure<Call>) -> String {
    let Failure { kind, first, calls, .. } = failure;
    let replayed = |places: &[usize]| replay(side, *kind, first, calls, places);
    let all = (0..calls.len()).collect();
    let places = shorten(all, |places| replayed(places).is_some());
    let lines = places.iter().map(|&place| format!("{place}: {:?}", calls[place])).collect();
    disagreement(failure, replayed(&places), "case", &places, lines)
}

/// What is told of a shortened failure: its complaint, where it begins, a line for each call, how to replay it.
pub(crate) fn disagreement<C>(
    failure: &Failure<C>,
    complaint: Option<String>,
    option: &str,
    places: &[usize],
    lines: Vec<String>,
) -> String {
    let Failure { seed, number, kind, first, calls, .. } = failure;
    // shortening keeps a failure, so there is one; the first is the fallback
    let complaint = complaint.unwrap_or_else(|| failure.complaint.clone());
    let mut text = format!("THE LIBRARY AND THE REFERENCE DISAGREE: {complaint}\n");
    text += &format!("{option} {number} of seed {seed}, {}\n", kind_name(*kind));
    text += &format!("first state and row: {first:?}");
    text += &format!("{} of {} calls:\n", lines.len(), calls.len());
    for line in lines {
        text += &format!("  {line}\n");
    }
    let only: Vec<String> = places.iter().map(|place| place.to_string()).collect();
    let only = only.join(",");
    text + &format!("to replay: agreement --seed {seed} --{option} {number} --only {only}\n")
}

fn kind_name(kind: Kind) -> String {
    match kind {
        Kind::List => "a list that begins with an accepted setup".into(),
        Kind::Sound => "a sound state".into(),
        Kind::Broken(which) => format!("a broken rule ({})", BREAKS[which].rule),
        Kind::Junk => "any state".into(),
    }
}
