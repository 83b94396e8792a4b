//! A director as bytes, and back.

use crate::damage::damaged;
use crate::layouts::{numbered, with_right_checksum};
use crate::support::*;
use live::control::{metrics, status};
use live::handover::layout::{bytes_of, crc32, read, LAYOUT, MOST_BYTES};
use live::handover::snapshot::{Resumed, Snapshot};
use live::instance::Id;
use nidhaaguf::raw;
use random::Rng;
use std::time::Duration;

const DAMAGES: usize = 10_000;

fn complaint(bytes: &[u8]) -> String {
    read(bytes).expect_err("bytes that no director has")
}

/// The largest director there is: all servers, all slots used.
fn largest_snapshot() -> Snapshot {
    let servers: String =
        (0..64).map(|number| format!("server 10.1.0.5:{} weight 1\n", 1 + number)).collect();
    let mut instance =
        instance_of(&format!("service 192.0.2.10:5432 tcp\nscheduler 1\n{servers}slots 4096\n"));
    (1..=4_096).for_each(|port| drop(pass(&mut instance, &syn(port))));
    assert_eq!(instance.director().used(), 4_096);
    Snapshot::of(&instance, &quiet_log())
}

#[test]
fn bytes_and_back() {
    let new = Snapshot::of(&instance(), &quiet_log());
    for snapshot in [new, small_snapshot(), largest_snapshot()] {
        let bytes = bytes_of(&snapshot);
        assert!(bytes.len() < MOST_BYTES, "{} bytes", bytes.len());
        assert_eq!(read(&bytes), Ok(snapshot));
    }
}

/// A director with connections of that scheduler, and with these weights, which were set.
fn weighted_snapshot(scheduler: u8, weights: [u16; 3]) -> Snapshot {
    let servers: String =
        (5..8).map(|number| format!("server 10.1.0.{number}:6432 weight 5\n")).collect();
    let mut instance = instance_of(&format!(
        "service 192.0.2.10:5432 tcp\nscheduler {scheduler}\n{servers}slots 9\n"
    ));
    for (number, weight) in weights.into_iter().enumerate() {
        pass(&mut instance, &syn(1 + number as u16)).unwrap();
        instance.set_weight(number, weight).unwrap();
    }
    (4..=7).for_each(|port| drop(pass(&mut instance, &syn(port))));
    Snapshot::of(&instance, &quiet_log())
}

/// They are there again, whatever they are in what is written.
fn must_be_worked_out(snapshot: &Snapshot, numbers: (u16, u16)) {
    assert_eq!((snapshot.state.largest_weight, snapshot.state.weight_divisor), numbers);
    assert_eq!(read(&bytes_of(snapshot)).as_ref(), Ok(snapshot));
    let mut other = snapshot.clone();
    (other.state.largest_weight, other.state.weight_divisor) = (5, 5);
    assert_eq!(bytes_of(&other), bytes_of(snapshot));
}

/// What follows from the weights isn't written, whatever the scheduler.
#[test]
fn largest_weight_and_divisor_are_worked_out() {
    for (weights, numbers) in [
        ([0, 0, 0], (0, 0)),
        ([6, 4, 0], (6, 2)),
        ([0, 7, 0], (7, 7)),
        ([6, 9, 15], (15, 3)),
        ([28_657, 46_368, 0], (46_368, 1)),
        ([65_535, 0, 65_535], (65_535, 65_535)),
    ] {
        let snapshots = (1..=4).map(|scheduler| weighted_snapshot(scheduler, weights));
        snapshots.for_each(|snapshot| must_be_worked_out(&snapshot, numbers));
    }
}

/// Two directors that differ in one other field have different bytes: so each of these is written.
#[test]
fn every_field_is_in_the_bytes() {
    let snapshot = small_snapshot();
    let changes: [fn(&mut Snapshot); 24] = [
        |other| other.boot.push('x'),
        |other| other.clock.zero += Duration::from_nanos(1),
        |other| other.clock.speed += 1,
        |other| other.state.clock += 1,
        |other| other.state.level += 1,
        |other| other.state.servers[63].count += 1,
        |other| other.row[29] += 1,
        |other| other.configured[2] += 1,
        |other| other.counters.idle_removed += 1,
        |other| other.counters.write_failures += 1,
        |other| other.weights_set += 1,
        |other| other.log.lost += 1,
        |other| other.log.told.full = !other.log.told.full,
        |other| other.log.told.drained += 1,
        |other| other.id = Id::of_number(1),
        |other| other.entries[4] += 1,
        |other| other.entries.truncate(4),
        |other| other.servers[0].opened += 1,
        |other| other.servers[1].ended[5] += 1,
        |other| other.servers[2].early += 1,
        |other| other.assigned[1].weight += 1,
        |other| other.assigned[1].is_down = false,
        |other| other.counters.resets_sent += other.counters.resets_unsent + 1,
        |other| other.counters.ipv6.swap(0, 1),
    ];
    for change in changes {
        let mut other = snapshot.clone();
        change(&mut other);
        assert_eq!(read(&bytes_of(&other)), Ok(other));
    }
}

#[test]
fn the_checksum_has_its_check_value() {
    assert_eq!(crc32(b"123456789"), 0xCBF4_3926);
    assert_eq!(crc32(b""), 0);
}

#[test]
fn every_cut_is_refused() {
    let bytes = bytes_of(&small_snapshot());
    for length in 0..bytes.len() {
        let complaint = complaint(&bytes[..length]);
        let words = if length < 16 { "it is no director's state" } else { "it is cut" };
        assert!(complaint.starts_with(words), "{length}: {complaint}");
        // also where the checksum is right
        if length > 20 {
            assert_eq!(
                read(&with_right_checksum(bytes[..length].to_vec())),
                Err("it is cut".into())
            );
        }
    }
}

#[test]
fn every_damage_is_refused() {
    let (mut random, bytes) = (Rng::new(15), bytes_of(&small_snapshot()));
    for _ in 0..DAMAGES {
        complaint(&damaged(&mut random, &bytes));
    }
}

#[test]
fn another_layout_is_told_with_those_that_are_read() {
    let bytes = bytes_of(&small_snapshot());
    for layout in [0, LAYOUT + 1, u32::MAX] {
        let words = format!("its layout is {layout}, and this program reads 1, 2 and 3");
        assert_eq!(complaint(&numbered(&bytes, layout)), words);
    }
}

#[test]
fn bytes_after_the_last_are_refused() {
    let mut bytes = bytes_of(&small_snapshot());
    bytes.extend([0; 3]);
    assert_eq!(complaint(&with_right_checksum(bytes)), "it has 3 bytes too many");
}

/// What a checksum can't find is refused for another reason, or is a director that the library takes and that is set up as
/// it was; that one can be used as any other.
#[test]
fn damages_under_a_right_checksum() {
    let (mut random, bytes) = (Rng::new(16), bytes_of(&small_snapshot()));
    let (config, mut unread, mut refused, mut used) = (small_config(), 0, 0, 0);
    for _ in 0..DAMAGES {
        let bytes = with_right_checksum(damaged(&mut random, &bytes));
        match read(&bytes).map(|snapshot| snapshot.resume(&config, 1, TAKEN)) {
            Err(_) => unread += 1,
            Ok(Err(_)) => refused += 1,
            Ok(Ok(resumed)) => {
                must_be_usable(resumed);
                used += 1;
            }
        }
    }
    // else the damages aren't what they are meant to be
    assert!(unread.min(refused).min(used) > DAMAGES / 20, "{unread} {refused} {used}");
}

fn must_be_usable(Resumed { mut instance, log: position, .. }: Resumed) {
    let (state, row) = instance.director().parts();
    let answer = raw::tick(*state, &mut row.to_vec(), state.clock);
    assert_eq!(answer.refusal, 0);
    assert_eq!(instance.director().slots(), 6);
    let wanted = small_config().settings().servers.into_iter().map(|server| server.at);
    let servers = instance.director().settings().servers.into_iter().map(|server| server.at);
    assert!(wanted.eq(servers));
    let mut log = quiet_log();
    log.go_on(position);
    for port in 1..=20 {
        pass(&mut instance, &syn(port));
        log.look(&instance);
        pass(&mut instance, &reset(port));
    }
    instance.set_weight(0, 7).unwrap();
    instance.tick(TAKEN + Duration::from_secs(2_000));
    log.look(&instance);
    assert!(instance.until_tick(TAKEN) > Duration::ZERO);
    let texts = [status::text(&instance), metrics::text(&instance)];
    assert!(texts.iter().all(|text| text.ends_with('\n')));
    assert!(instance.changes() > 0 && !instance.counters().to_string().is_empty());
    assert_eq!(read(&bytes_of(&Snapshot::of(&instance, &log))).map(|_| ()), Ok(()));
}
