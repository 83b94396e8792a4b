//! Mistakes of bursts and serves: each must be found in bursts and in serves, its case shortened and replayed.

use crate::mistaken_many::{Mistake, MistakenMany};
use agreement::many::call::{Form, Many};
use agreement::many::report::{failure, kept, shortened};
use agreement::many::run::{calls_of, replay, run};

/// Runs it until the mistake is found; the shortened case must fail again when it is drawn anew. Tells its complaint.
fn is_found(side: &MistakenMany, most_packets: usize) -> (String, Vec<Many>) {
    let found = run(side, 1, 200_000).expect_err("the mistake was not found");
    let places = shortened(side, &found);
    let (_, first, calls) = calls_of(found.seed, found.number);
    assert_eq!(calls[..found.calls.len()], found.calls[..]);
    let few = kept(&calls, &places);
    let packets: usize = few.iter().map(|many| many.packets.len()).sum();
    assert!(packets <= most_packets, "{}", failure(side, &found));
    let complaint = replay(side, &first, &few).expect("the shortened case doesn't fail");
    (complaint, few)
}

/// Where a mistake is made.
#[derive(Clone, Copy, Debug, PartialEq, Eq)]
pub enum Where {
    Bursts,
    Serves,
}
use Where::{Bursts, Serves};

/// The same, with the mistake in one form alone. Its complaint is one of these, which "or" divides.
pub fn is_found_in(place: Where, mistake: Mistake, most_packets: usize, complaint: &str) {
    let (in_bursts, in_serves) = match place {
        Bursts => (mistake, Mistake::None),
        Serves => (Mistake::None, mistake),
    };
    let (found, few) = is_found(&MistakenMany { in_bursts, in_serves }, most_packets);
    assert!(complaint.split(" or ").any(|part| found.contains(part)), "{found}");
    let is_burst = matches!(few[few.len() - 1].form, Form::Burst(_));
    assert_eq!(is_burst, place == Bursts);
}

#[test]
fn without_a_mistake_nothing_is_found() {
    let side = MistakenMany { in_bursts: Mistake::None, in_serves: Mistake::None };
    run(&side, 1, 50_000).unwrap_or_else(|found| panic!("{}", failure(&side, &found)));
}

#[test]
fn stops_at_the_first_refusal() {
    is_found_in(Bursts, Mistake::StopsAtFirstRefusal, 2, "records");
    is_found_in(Serves, Mistake::StopsAtFirstRefusal, 2, "unread or errno");
}

#[test]
fn the_second_packet_sees_the_state_before_the_first() {
    is_found_in(Bursts, Mistake::SecondSeesStateBeforeFirst, 4, "row");
    is_found_in(Serves, Mistake::SecondSeesStateBeforeFirst, 4, "row");
}

#[test]
fn removal_left_out() {
    is_found_in(Bursts, Mistake::RemovalLeftOut, 0, "row");
    is_found_in(Serves, Mistake::RemovalLeftOut, 0, "row");
}

#[test]
fn packets_of_a_refused_tick_taken() {
    is_found_in(Bursts, Mistake::RefusedTickOverlooked, 1, "records");
    is_found_in(Serves, Mistake::RefusedTickOverlooked, 1, "unread");
}

#[test]
fn largest_weight_and_divisor_not_judged() {
    is_found_in(Bursts, Mistake::WeightNumbersUnjudged, 0, "refusal: 15");
    is_found_in(Serves, Mistake::WeightNumbersUnjudged, 0, "refusal: 15");
}

#[test]
fn the_record_of_the_next_place_written() {
    is_found_in(Bursts, Mistake::RecordOfNextPlace, 1, "records");
    is_found_in(Serves, Mistake::RecordOfNextPlace, 1, "records");
}

#[test]
fn a_long_packet_cut_a_byte_too_early() {
    // the last byte of a place is told of by its total length alone
    is_found_in(Bursts, Mistake::LongPacketCutTo2047, 1, "records");
}

#[test]
fn a_part_of_a_place_taken() {
    is_found_in(Bursts, Mistake::PartOfAPlaceTaken, 0, "records");
}
