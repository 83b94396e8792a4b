//! What goes on in the next process, and what doesn't.

use crate::support::*;
use live::book::Ending;
use live::config::Config;
use live::control::{metrics, status};
use live::handover::snapshot::{this_boot, Snapshot};
use live::policy::{Policy, Unknown};
use nidhaaguf::raw::State;
use std::time::Duration;

/// Why a director doesn't go on.
fn complaint(snapshot: Snapshot, config: &Config) -> String {
    snapshot.resume(config, 1, TAKEN).map(|_| ()).expect_err("it goes on")
}

/// All that can be asked of it is as it was, and so is what it does.
#[test]
fn a_director_goes_on() {
    let snapshot = small_snapshot();
    let mut resumed = snapshot.clone().resume(&small_config(), 1, TAKEN).unwrap();
    let mut log = quiet_log();
    log.go_on(resumed.log.clone());
    assert_eq!(Snapshot::of(&resumed.instance, &log), snapshot);
    assert_eq!(resumed.forgotten, None);
    let status = status::text(&resumed.instance);
    assert!(status.contains(", 5 of 6 slots used, clock 4711\n"), "{status}");
    assert!(metrics::text(&resumed.instance).contains("nidhaaguf_idle_removed_total 1\n"));
    assert!(resumed.log.told.full && resumed.log.told.drained == 0b10);
    // a connection is kept, one that was ended is opened anew
    let before = resumed.instance.director().used();
    pass(&mut resumed.instance, &syn(1)).unwrap();
    assert_eq!(resumed.instance.director().used(), before);
    pass(&mut resumed.instance, &syn(3)).unwrap();
    assert_eq!(resumed.instance.director().used(), before + 1);
}

/// The weights of the configuration that was applied last are told from those that were set: a reload compares with the
/// former.
#[test]
fn weights_are_kept_beside_the_configured_ones() {
    let other = config(&format!("{CONFIG}slots 6\n").replace("weight 20", "weight 21"));
    let resumed = small_snapshot().resume(&other, 1, TAKEN).unwrap();
    let configured = resumed.instance.settings().servers.iter().map(|server| server.weight);
    assert!(configured.eq([1, 1, 20]));
    let director = resumed.instance.director();
    assert_eq!([0, 1, 2].map(|server| director.weight(server)), [Some(1), Some(0), Some(20)]);
}

#[test]
fn another_setup_is_told_with_its_line() {
    let text = format!("{CONFIG}slots 6\n");
    let server = "server 10.30.0.5:6432 weight 20\n";
    for (from, to, words) in [
        (
            "5432 tcp",
            "5433 tcp",
            "its service is 192.0.2.10:5432 tcp, and test.conf line 2 says 192.0.2.10:5433 tcp",
        ),
        (
            "5432 tcp",
            "5432 udp",
            "its service is 192.0.2.10:5432 tcp, and test.conf line 2 says 192.0.2.10:5432 udp",
        ),
        (
            "least-connection",
            "1",
            "its scheduler is least-connection, and test.conf line 3 says round-robin",
        ),
        ("slots 6", "slots 7", "its number of slots is 6, and test.conf line 7 says 7"),
        (
            "10.2.0.5:6432",
            "10.2.0.6:6432",
            "its server 1 is 10.2.0.5:6432, and test.conf line 5 says 10.2.0.6:6432",
        ),
        (server, "", "its server 2 is 10.30.0.5:6432, and test.conf says none"),
        (
            server,
            &format!("{server}server 10.4.0.5:1 weight 0\n"),
            "its server 3 is none, and test.conf line 7 says 10.4.0.5:1",
        ),
    ] {
        assert!(text.contains(from));
        assert_eq!(complaint(small_snapshot(), &config(&text.replace(from, to))), words);
    }
}

#[test]
fn another_clock_speed_is_told() {
    let found = small_snapshot().resume(&small_config(), 8, TAKEN).map(|_| ());
    assert_eq!(found, Err("its clock runs 1 times as fast as time, and not 8 times".into()));
}

#[test]
fn a_clock_that_is_ahead_is_told() {
    let second = Duration::from_secs(4_711);
    let found = |now| small_snapshot().resume(&small_config(), 1, now).map(|_| ());
    let ahead = "its clock is ahead of the machine's: 4711";
    assert_eq!(found(second - Duration::from_nanos(1)), Err(ahead.into()));
    assert_eq!(found(second), Ok(()));
}

#[test]
fn what_the_library_refuses_is_told() {
    let changes: [fn(&mut State); 5] = [
        |state| state.servers[0].count += 1,
        |state| state.servers[1].port = 0,
        |state| state.place += 1,
        |state| state.largest_weight += 1,
        |state| state.weight_divisor += 1,
    ];
    for change in changes {
        let mut snapshot = small_snapshot();
        change(&mut snapshot.state);
        let words = complaint(snapshot, &small_config());
        assert_eq!(words, "the library refuses it: state and row don't fit together (15)");
    }
}

/// Counts that could not be added to, and what was told of more than there was.
#[test]
fn counts_that_no_director_can_have_are_refused() {
    let changes: [fn(&mut Snapshot); 14] = [
        |other| other.counters.resets_sent += 1,
        |other| other.counters.resets_unsent += 1,
        |other| other.counters.resets_unsent = u64::MAX,
        |other| other.counters.ipv6[0] += 1,
        |other| other.counters.ipv6[1] = u64::MAX,
        |other| other.servers[0].opened += 1,
        |other| other.servers[2].ended[3] = 1 << 55,
        |other| other.servers[1].early += 1,
        |other| other.servers[0].ended[Ending::Idle as usize] += 2,
        |other| other.weights_set = u64::MAX,
        |other| other.counters.idle_removed = 1 << 55,
        |other| other.log.lost = 1 << 63,
        |other| other.log.told.refused += 1,
        |other| other.log.told.refused_before = other.log.told.refused + 1,
    ];
    for change in changes {
        let mut snapshot = small_snapshot();
        change(&mut snapshot);
        let words = "its counts are none that a director can have";
        assert_eq!(complaint(snapshot, &small_config()), words);
    }
}

/// A book that isn't that of the table, or that the packets can't have made.
#[test]
fn a_book_that_no_director_can_have_is_refused() {
    let known = 1 << 32;
    // its second connection was finished by its client
    let snapshot = || {
        let mut snapshot = small_snapshot();
        snapshot.row[5] = 2;
        snapshot
    };
    assert!(snapshot().entries.iter().all(|word| word & (known | 4_711) == known | 4_711));
    assert_eq!(complaint_of_book(&snapshot(), |_| {}), "its book is not that of its connections");
    let good = |other: &mut Snapshot| other.entries[1] = known | 4_711;
    assert!(resumes(&snapshot(), good));
    assert!(resumes(&snapshot(), |other| other.entries = vec![0; 5]));
    let changes: [fn(&mut Snapshot); 8] = [
        |other| other.entries.truncate(4),
        |other| other.entries.push(0),
        // after its last packet, and so after the clock
        |other| other.entries[0] += 1,
        // a clock that isn't known, or opening at no clock
        |other| other.entries[0] = 4_711,
        |other| other.entries[0] = 1 << 33,
        |other| other.entries[0] |= 1 << 34,
        |other| other.entries[1] |= 1 << 33,
        // two connections of one client
        |other| other.row[7] = other.row[2],
    ];
    for change in changes {
        let words = complaint_of_book(&snapshot(), |other| {
            good(other);
            change(other);
        });
        assert_eq!(words, "its book is not that of its connections");
    }
}

fn complaint_of_book(snapshot: &Snapshot, change: impl FnOnce(&mut Snapshot)) -> String {
    let mut other = snapshot.clone();
    change(&mut other);
    complaint(other, &small_config())
}

fn resumes(snapshot: &Snapshot, change: impl FnOnce(&mut Snapshot)) -> bool {
    let mut other = snapshot.clone();
    change(&mut other);
    other.resume(&small_config(), 1, TAKEN).is_ok()
}

/// The library's weight is 0 of a server that is down, and of any other what the operator set.
#[test]
fn weights_that_were_not_set_are_refused() {
    let changes: [fn(&mut Snapshot); 3] = [
        |other| other.assigned[0].weight = 2,
        |other| other.assigned[2].is_down = true,
        |other| (other.assigned[1].weight, other.assigned[1].is_down) = (7, false),
    ];
    for change in changes {
        let words = complaint_of_book(&small_snapshot(), change);
        assert_eq!(words, "its weights are not those that were set");
    }
    // of one that is down any weight may have been set
    assert!(resumes(&small_snapshot(), |other| other.assigned[1].weight = 7));
}

/// It is the same director, with the same connections: still opening, or open, and since when.
#[test]
fn the_book_goes_on() {
    let mut snapshot = small_snapshot();
    snapshot.assigned[1].weight = 7;
    let mut instance = snapshot.resume(&small_config(), 1, TAKEN).unwrap().instance;
    assert_eq!(instance.id(), "0123456789abcdef");
    let seen = instance.connections();
    let states: Vec<_> = seen.iter().map(|seen| (seen.state.name(), seen.opened)).collect();
    let opening = ("opening", Some(4_711));
    assert_eq!(states, [("open", Some(4_711)), opening, opening, opening, opening]);
    assert_eq!((instance.is_down(1), instance.weight(1)), (true, Some(7)));
    instance.set_down(1, false).unwrap();
    assert_eq!(instance.director().weight(1), Some(7));
    // ended in time, and a server's reset is not early any more
    instance.set_policy(Policy { unknown: Unknown::Drop, opening_timeout: 3 });
    instance.tick(TAKEN + Duration::from_secs(2));
    assert_eq!(instance.director().used(), 5);
    instance.tick(TAKEN + Duration::from_secs(3));
    assert_eq!(instance.director().used(), 1);
}

/// After another start of the machine connections are forgotten and counts begin anew; weights, set and configured, are kept.
#[test]
fn another_boot_forgets_connections_and_keeps_weights() {
    assert!(!this_boot().is_empty());
    let snapshot = Snapshot { boot: "another".into(), ..small_snapshot() };
    // the clock began anew as well
    let resumed = snapshot.resume(&small_config(), 1, Duration::from_secs(30)).unwrap();
    let director = resumed.instance.director();
    assert_eq!((resumed.forgotten, director.used(), director.clock()), (Some(5), 0, 0));
    assert_eq!([0, 1, 2].map(|server| director.weight(server)), [Some(1), Some(0), Some(20)]);
    assert_eq!(resumed.instance.counters().to_string(), instance().counters().to_string());
    assert_eq!(resumed.log.told.drained, 0b10);
    assert!(!resumed.log.told.full);
    // another director, of which the health check's word is kept
    assert_ne!(resumed.instance.id(), "0123456789abcdef");
    assert!(resumed.instance.is_down(1));
    assert!(resumed.instance.book().servers().iter().all(|counts| counts.opened == 0));
}

/// An idle limit goes on being true: what was idle for long enough meanwhile is removed at the first tick.
#[test]
fn idle_connections_go_at_the_first_tick() {
    for (later, left) in [(899, 5), (900, 0)] {
        let now = TAKEN + Duration::from_secs(later);
        let mut instance = small_snapshot().resume(&small_config(), 1, now).unwrap().instance;
        assert_eq!(instance.director().used(), 5);
        instance.tick(now);
        assert_eq!(instance.director().used(), left, "after {later} s");
    }
}
