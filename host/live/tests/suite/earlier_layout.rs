//! Directors of the layouts 1 and 2: what the programs before have saved, and hand over.

use crate::damage::damaged;
use crate::handover::{read_line, request, Place};
use crate::layouts::{layout_1_of, layout_2_of, numbered, with_right_checksum, AFTER, IN_LAYOUT_1};
use crate::recorded::{LAYOUT_1, LAYOUT_2};
use crate::support::*;
use live::book::Ending;
use live::counters::{CHANGES, WAYS};
use live::handover::layout::{bytes_of, read};
use live::handover::request::Request;
use live::handover::snapshot::Snapshot;
use live::handover::take::Taken;
use live::instance::Assigned;
use live::policy::{Policy, Unknown};
use nidhaaguf::Refusal;
use random::Rng;
use std::io::{ErrorKind, Write};
use std::time::Duration;

/// Each number in the place that the library's header of before gave it.
#[test]
fn counters_keep_their_answers() {
    let mut bytes = layout_1_of(&small_snapshot());
    let after = bytes.len() - AFTER;
    let counters = bytes[after - 2 * IN_LAYOUT_1..after].chunks_mut(8);
    for (place, counter) in counters.enumerate() {
        counter.copy_from_slice(&(1_000 + place as u64).to_le_bytes());
    }
    let mut snapshot = read(&with_right_checksum(bytes)).unwrap();
    let packets = &snapshot.counters.packets;
    for ((way, _), before) in WAYS.into_iter().zip([1_000, 1_018]) {
        let changes = CHANGES.map(|(change, _)| packets.accepted(way, change));
        assert_eq!(changes, [before, before + 1, before + 2]);
        for refusal in Refusal::ALL {
            let number = u64::from(refusal.number());
            let expected = if number <= 15 { before + 2 + number } else { 0 };
            assert_eq!(packets.refused(way, refusal), expected, "{refusal}");
        }
        // and so none is in a place of no answer
        assert_eq!(packets.taken(way), (before..before + 18).sum());
    }
    // all else is as it was
    snapshot.counters.packets = small_snapshot().counters.packets;
    must_be_known(snapshot);
}

/// What is read of such a program: of no connection it is known when it was opened, counts by server begin at 0, no server is down.
fn known_before(snapshot: Snapshot) -> Snapshot {
    let servers = snapshot.servers.len();
    let weights = snapshot.state.servers[..servers].iter().map(|server| server.weight);
    let assigned = weights.map(|weight| Assigned { weight, is_down: false }).collect();
    let (entries, counts) = (vec![0; snapshot.entries.len()], vec![Default::default(); servers]);
    let mut counters = snapshot.counters.clone();
    (counters.resets_sent, counters.resets_unsent, counters.ipv6) = (0, 0, [0; 2]);
    Snapshot { entries, servers: counts, assigned, counters, ..snapshot }
}

/// What was read is the small director, as far as a program of before had it; its name is a new one.
fn must_be_known(read: Snapshot) {
    let expected = Snapshot { id: read.id.clone(), ..known_before(small_snapshot()) };
    assert_eq!(read, expected);
    assert_ne!(read.id, small_snapshot().id);
}

/// Of the connections it isn't known when they were opened, so none is late and none early; and all else goes on.
#[test]
fn connections_of_before_are_open() {
    for of_layout in [layout_1_of, layout_2_of] {
        let known = read(&of_layout(&small_snapshot())).unwrap();
        must_be_known(known.clone());
        let mut instance = known.resume(&small_config(), 1, TAKEN).unwrap().instance;
        instance.set_policy(Policy { unknown: Unknown::Drop, opening_timeout: 1 });
        instance.tick(TAKEN + Duration::from_secs(899));
        let connections = instance.connections();
        assert!(connections
            .iter()
            .all(|seen| seen.state.name() == "open" && seen.opened.is_none()));
        assert_eq!(
            (connections.len(), instance.weight(1), instance.is_down(1)),
            (5, Some(0), false)
        );
        instance.tick(TAKEN + Duration::from_secs(900));
        let idle = instance.book().servers().iter().map(|counts| counts.ended_by(Ending::Idle));
        assert_eq!(idle.sum::<u64>(), 5);
    }
}

#[test]
fn what_is_read_is_written_in_the_own_layout() {
    for of_layout in [layout_1_of, layout_2_of] {
        let known = read(&of_layout(&small_snapshot())).unwrap();
        assert_eq!(read(&bytes_of(&known)).as_ref(), Ok(&known));
        assert_eq!(of_layout(&known), of_layout(&small_snapshot()));
    }
}

#[test]
fn cut_and_damaged_ones_are_refused() {
    for bytes in [LAYOUT_1.bytes(), LAYOUT_2.bytes()] {
        for length in 0..bytes.len() {
            assert!(read(&bytes[..length]).is_err(), "{length}");
            if length > 20 {
                let cut = with_right_checksum(bytes[..length].to_vec());
                assert_eq!(read(&cut), Err("it is cut".into()));
            }
        }
        let mut random = Rng::new(18);
        for _ in 0..1_000 {
            assert!(read(&damaged(&mut random, &bytes)).is_err());
        }
    }
}

/// Ten counters too few for one layout and too many for the other, and the book likewise.
#[test]
fn one_layout_is_not_read_as_another() {
    let (first, second) = (LAYOUT_1.bytes(), LAYOUT_2.bytes());
    for (bytes, layout) in [(&first, 2), (&first, 3), (&second, 3)] {
        assert_eq!(read(&numbered(bytes, layout)), Err("it is cut".into()));
    }
    assert_eq!(read(&numbered(&second, 1)), Err("it has 80 bytes too many".into()));
    // a name, five entries and their number, three servers, four counts
    let added = 8 + 4 + 5 * 8 + 3 * (8 * 8 + 3) + 4 * 8;
    let own = bytes_of(&small_snapshot());
    for (layout, more) in [(2, added), (1, added + 80)] {
        assert_eq!(read(&numbered(&own, layout)), Err(format!("it has {more} bytes too many")));
    }
}

/// A program of an earlier layout refuses before it stops anything; asked again, it hands over what it has.
#[test]
fn a_program_of_an_earlier_layout_is_asked_again() {
    let earlier: [(u32, fn(&Snapshot) -> Vec<u8>); 2] = [(1, layout_1_of), (2, layout_2_of)];
    for (layout, of_layout) in earlier {
        let place = Place::new("earlier");
        let taker = place.taker(|taken| {
            let Taken { snapshot, giver, .. } = taken.unwrap();
            giver.serve().unwrap();
            snapshot
        });
        let mut refused = place.asked_for(request());
        let words = format!("error: layout 3 is asked for, and this program's is {layout}\n");
        refused.write_all(words.as_bytes()).unwrap();
        let stream = place.asked_for(Request { layout, ..request() });
        let bytes = of_layout(&small_snapshot());
        let _serves_on = place.send(&stream, &format!("state {}\n", bytes.len()), &bytes);
        must_be_known(taker.join().unwrap());
        assert_eq!(read_line(&stream), "serving\n");
    }
}

/// One that refuses again is asked no third time, and one of a later layout no second time; the last reason is told.
#[test]
fn other_refusals_are_final() {
    let layout_1 = "error: layout 3 is asked for, and this program's is 1\n";
    for answers in [
        &["error: layout 3 is asked for, and this program's is 4\n"][..],
        &[layout_1, "error: layout 1 is asked for, and this program's is 3\n"],
        &[layout_1, "error: the service is another\n"],
    ] {
        let place = Place::new("refusals");
        let taker = place.taker(|taken| taken.map(|_| ()));
        for (layout, answer) in [3, 1].into_iter().zip(answers) {
            let mut stream = place.asked_for(Request { layout, ..request() });
            stream.write_all(answer.as_bytes()).unwrap();
        }
        let complaint = taker.join().unwrap().unwrap_err();
        let last = answers.last().unwrap().trim_start_matches("error").trim_end();
        assert!(complaint.ends_with(&format!("hands nothing over{last}")), "{complaint}");
        place.listener.set_nonblocking(true).unwrap();
        assert_eq!(place.listener.accept().unwrap_err().kind(), ErrorKind::WouldBlock);
    }
}
