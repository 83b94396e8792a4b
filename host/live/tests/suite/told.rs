//! What the log tells of the table and the servers, and what it has told already.

use crate::support::*;
use live::instance::Instance;
use live::log::position::{Position, Told};
use live::log::Level;

const SLOTS: u16 = 20;

fn small_instance() -> Instance {
    instance_of(&format!("{CONFIG}slots {SLOTS}\n"))
}

fn open(instance: &mut Instance, ports: std::ops::RangeInclusive<u16>) -> usize {
    ports.filter(|&port| pass(instance, &syn(port)).is_some()).count()
}

fn end(instance: &mut Instance, ports: std::ops::RangeInclusive<u16>) {
    for port in ports {
        assert!(pass(instance, &reset(port)).is_some());
    }
}

/// The only line of a look.
fn line(told: &mut Told, instance: &Instance) -> (Level, String) {
    let mut lines = told.look(instance);
    assert_eq!(lines.len(), 1, "{lines:?}");
    lines.remove(0)
}

fn must_be_silent(told: &mut Told, instance: &Instance) {
    assert_eq!(told.look(instance), []);
}

#[test]
fn a_full_table_is_told_once_and_its_room_with_a_tenth_free() {
    let mut instance = small_instance();
    let mut told = Position::at_start(&instance).told;
    assert_eq!(open(&mut instance, 1..=19), 19);
    must_be_silent(&mut told, &instance);
    assert_eq!(open(&mut instance, 20..=20), 1);
    let full = "the table is full: 20 of 20 slots used, new connections are refused";
    assert_eq!(line(&mut told, &instance), (Level::Warning, full.into()));
    assert_eq!(open(&mut instance, 21..=27), 0);
    must_be_silent(&mut told, &instance);
    end(&mut instance, 1..=2);
    assert_eq!(open(&mut instance, 1..=2), 2);
    end(&mut instance, 1..=2);
    must_be_silent(&mut told, &instance);
    end(&mut instance, 3..=3);
    let room = "the table has room again: 17 of 20 slots used, 7 openings were refused";
    assert_eq!(line(&mut told, &instance), (Level::Notice, room.into()));
    must_be_silent(&mut told, &instance);
    // the count begins anew
    assert_eq!(open(&mut instance, 31..=35), 3);
    assert_eq!(line(&mut told, &instance), (Level::Warning, full.into()));
    end(&mut instance, 31..=33);
    assert!(line(&mut told, &instance).1.ends_with(", 2 openings were refused"));
}

/// Full between two looks alone.
#[test]
fn a_table_that_was_full_is_told_by_its_refusals() {
    let mut instance = small_instance();
    let mut told = Position::at_start(&instance).told;
    assert_eq!(open(&mut instance, 1..=25), 20);
    end(&mut instance, 1..=20);
    let was = "the table was full: 0 of 20 slots used now, 5 openings were refused";
    assert_eq!(line(&mut told, &instance), (Level::Warning, was.into()));
    // refused since the look: it isn't room yet
    assert_eq!(open(&mut instance, 1..=26), 20);
    end(&mut instance, 1..=20);
    must_be_silent(&mut told, &instance);
    let room = "the table has room again: 0 of 20 slots used, 11 openings were refused";
    assert_eq!(line(&mut told, &instance), (Level::Notice, room.into()));
}

#[test]
fn a_drained_server_is_told_when_it_reaches_zero() {
    let mut instance = small_instance();
    let mut told = Position::at_start(&instance).told;
    open(&mut instance, 1..=1);
    instance.set_weight(0, 0).unwrap();
    must_be_silent(&mut told, &instance);
    end(&mut instance, 1..=1);
    let drained = "server 0 (10.1.0.5:6432) is drained: no connections, may be unplugged";
    assert_eq!(line(&mut told, &instance), (Level::Notice, drained.into()));
    must_be_silent(&mut told, &instance);
    // back in service, and drained again
    instance.set_weight(0, 1).unwrap();
    must_be_silent(&mut told, &instance);
    instance.set_weight(0, 0).unwrap();
    assert_eq!(line(&mut told, &instance).1, drained);
    instance.set_weight(2, 0).unwrap();
    assert!(line(&mut told, &instance).1.starts_with("server 2 (10.30.0.5:6432) is drained"));
}

#[test]
fn what_was_so_at_the_start_is_not_told() {
    let mut instance = small_instance();
    instance.set_weight(1, 0).unwrap();
    open(&mut instance, 1..=25);
    let mut told = Position::at_start(&instance).told;
    must_be_silent(&mut told, &instance);
    assert!(told.full && told.drained == 0b10);
}
