//! Small captures, and the counts that they allow.

use super::*;
use crate::books::replaced::Replaced;
use crate::lab::replacement::Replacement;
use crate::lab::status::Status;

pub const CLIENT: &str = "10.0.0.1.40000";
pub const VIRTUAL: &str = "192.0.2.10.5432";
pub const SERVERS: [&str; 2] = ["10.1.0.5.6432", "10.2.0.5.6432"];

/// A packet at that time.
pub fn packet(time: f64, source: &str, destination: &str, flags: &str, content: &str) -> Packet {
    let header = format!("{time} IP (tos 0x0, ttl 63, id 7, offset 0)");
    let sum = "cksum 0x0000 (correct)";
    let segment = format!("{source} > {destination}: Flags [{flags}], {sum}, {content}");
    crate::links::packet::parse(&header, &segment).unwrap()
}

/// A packet that the director is handed at that time and the one that it writes then.
pub fn taken(time: f64, server: usize, inbound: bool, flags: &str) -> [Packet; 2] {
    let content = format!("seq {time}, length 0");
    let packet = |source, destination| packet(time, source, destination, flags, &content);
    match inbound {
        true => [packet(CLIENT, VIRTUAL), packet(CLIENT, SERVERS[server])],
        false => [packet(SERVERS[server], CLIENT), packet(VIRTUAL, CLIENT)],
    }
}

pub fn look(clock: u32, counts: [u32; 2]) -> Look {
    let status = Status::of_counts(clock, &counts);
    Look { before: f64::from(clock) + 0.5, after: f64::from(clock) + 0.6, status }
}

/// The clock of a director that was looked at twice in each of 1000 seconds, and showed 0 at time 0.
pub fn clock() -> Clock {
    let looks = (0..2000).map(|half| {
        let (clock, time) = (half / 2, f64::from(half / 2) + f64::from(half % 2) * 0.99);
        Look { before: time, after: time, ..look(clock, [0, 0]) }
    });
    Clock::that_fits(&looks.collect::<Vec<_>>(), 1).unwrap()
}

fn book(packets: &[[Packet; 2]]) -> Result<PacketBook, Failure> {
    PacketBook::read(&packets.concat(), &clock(), &[])
}

fn check(packets: &[[Packet; 2]], looks: &[(u32, [u32; 2])]) -> Result<usize, Failure> {
    let looks: Vec<Look> = looks.iter().map(|&(clock, counts)| look(clock, counts)).collect();
    book(packets)?.check(&looks, &clock())
}

#[test]
fn a_finished_connection_counts_until_120_after_its_last_packet() {
    let packets = [
        taken(10.1, 0, true, "S"),
        taken(20.1, 0, true, "F."),
        taken(30.1, 0, false, "F."),
        taken(40.1, 0, true, "."),
    ];
    assert_eq!(check(&packets, &[(9, [0, 0]), (10, [1, 0]), (159, [1, 0]), (160, [0, 0])]), Ok(8));
    for wrong in [(9, [1, 0]), (10, [0, 0]), (159, [0, 0]), (160, [1, 0]), (100, [0, 1])] {
        assert!(check(&packets, &[wrong]).is_err(), "{wrong:?}");
    }
}

#[test]
fn an_open_connection_counts_until_900_after_its_last_packet() {
    let packets = [taken(10.1, 1, true, "S"), taken(20.1, 1, true, "F.")];
    assert_eq!(check(&packets, &[(919, [0, 1]), (920, [0, 0])]), Ok(4));
    assert!(check(&packets, &[(919, [0, 0])]).is_err());
    assert!(check(&packets, &[(920, [0, 1])]).is_err());
}

#[test]
fn a_reset_ends_a_connection_at_once_and_the_port_may_come_again() {
    let packets =
        [taken(10.1, 0, true, "S"), taken(20.1, 0, false, "R"), taken(30.1, 1, true, "S")];
    assert_eq!(check(&packets, &[(19, [1, 0]), (20, [0, 0]), (30, [0, 1])]), Ok(6));
    assert!(check(&packets, &[(20, [1, 0])]).is_err());
}

/// A connection on the first server that is opened at 10, and finished by both sides at 30.
fn finished() -> [[Packet; 2]; 3] {
    [taken(10.1, 0, true, "S"), taken(20.1, 0, true, "F."), taken(30.1, 0, false, "F.")]
}

#[test]
fn a_syn_on_a_finished_connection_removes_it_and_opens_another() {
    let packets = [&finished()[..], &[taken(40.1, 1, true, "S")]].concat();
    assert_eq!(book(&packets).unwrap().renewals(), 1);
    let right = [(39, [1, 0]), (40, [0, 1]), (150, [0, 1]), (939, [0, 1]), (940, [0, 0])];
    assert_eq!(check(&packets, &right), Ok(10));
    for wrong in [(39, [0, 0]), (40, [1, 1]), (40, [1, 0]), (160, [0, 0])] {
        assert!(check(&packets, &[wrong]).is_err(), "{wrong:?}");
    }
}

#[test]
fn a_renewed_connection_is_not_renewed_by_the_same_syn_sent_again() {
    let again = [taken(40.1, 1, true, "S"), taken(41.1, 1, true, "S")];
    let book = book(&[&finished()[..], &again].concat()).unwrap();
    assert_eq!((book.renewals(), book.opened(0), book.opened(1)), (1, 1, 1));
}

#[test]
fn only_a_syn_alone_renews_and_only_what_both_sides_have_finished_and_still_counts() {
    let renewals = |packets: &[[Packet; 2]]| book(packets).map(|book| book.renewals());
    for flags in ["S.", "SF", "."] {
        let packets = [&finished()[..], &[taken(40.1, 0, true, flags)]].concat();
        assert_eq!(renewals(&packets), Ok(0), "{flags}");
    }
    let half = [&finished()[..2], &[taken(40.1, 0, true, "S")]].concat();
    assert_eq!(renewals(&half), Ok(0));
    for (time, want) in [(149.1, 1), (151.1, 0)] {
        let packets = [&finished()[..], &[taken(time, 1, true, "S")]].concat();
        assert_eq!(renewals(&packets), Ok(want), "{time}");
    }
}

#[test]
fn a_moved_connection_is_found() {
    let packets = [taken(10.1, 0, true, "S"), taken(11.1, 1, true, ".")];
    assert!(book(&packets).unwrap_err().0.starts_with("moved: "));
    let packets = [taken(10.1, 0, true, "S"), taken(11.1, 1, true, "S")];
    assert!(book(&packets).unwrap_err().0.starts_with("moved: "));
}

#[test]
fn what_is_not_written_was_refused_and_what_was_not_handed_is_not_written() {
    let [handed, written] = taken(10.1, 0, true, "S");
    let [refused, _] = taken(9.1, 0, true, "F.");
    let book =
        PacketBook::read(&[refused.clone(), handed, written.clone(), refused], &clock(), &[])
            .unwrap();
    assert_eq!((book.refused.len(), book.opened(0)), (2, 1));
    assert!(PacketBook::read(&[written], &clock(), &[]).is_err());
}

/// What becomes of a replacement of that kind that began at that time, after these packets.
fn check_replaced(packets: &[Packet], how: Replacement, before: f64, connections: u32) -> bool {
    let book = PacketBook::read(packets, &clock(), &[]).unwrap();
    let reading = Reading { before, after: before + 0.2, clock: before as u32 };
    Replaced { how, reading, connections }.check(&book, &clock()).is_ok()
}

#[test]
fn a_new_process_goes_on_with_the_connections_of_the_packets() {
    let packets = taken(10.1, 0, true, "S");
    for how in [Replacement::TakeOver, Replacement::Restart] {
        let right = [0, 1, 2].map(|count| check_replaced(&packets, how, 20.2, count));
        assert_eq!(right, [false, true, false], "{how}");
    }
}

#[test]
fn a_take_over_loses_no_packet_of_a_connection_that_was_not_reset() {
    let [lost, _] = taken(20.3, 0, false, ".");
    let open = [&taken(10.1, 0, true, "S")[..], std::slice::from_ref(&lost)].concat();
    assert!(!check_replaced(&open, Replacement::TakeOver, 20.2, 1));
    assert!(check_replaced(&open, Replacement::TakeOver, 19.2, 1), "it was another time");
    assert!(check_replaced(&open, Replacement::Restart, 20.2, 1));
    let reset = [taken(10.1, 0, true, "S"), taken(15.1, 0, false, "R")].concat();
    assert!(check_replaced(&[&reset[..], &[lost]].concat(), Replacement::TakeOver, 20.2, 0));
}
