//! The book: a true list passes, and each kind of lie is caught.

use crate::support::*;
use reference::book::{check, Book, Call};
use reference::data::{TCP, UDP};
use reference::packets::{ACK, FIN, RST, SYN};
use reference::*;

const OPENED: Answer = Answer::Passed(0, Change::Opened);
const KEPT: Answer = Answer::Passed(0, Change::Kept);
const ENDED: Answer = Answer::Passed(0, Change::Ended);

/// A book after an accepted setup with two servers.
fn set_up_book(protocol: u8) -> Book {
    let mut book = Book::new();
    let servers = servers(&[1, 1]);
    let call = Call::SetUp { service: service(protocol, 1, 2), servers: &servers };
    check(&mut book, call, Answer::Done, &[], &[0, 0]).unwrap();
    book
}

/// An inbound packet of client 0 that leaves for server 0, and its answer.
fn inbound(book: &mut Book, flags: u8, clock: u32, answer: Answer, counts: [u32; 2]) -> bool {
    let udp = book.settings.unwrap().service.protocol == UDP;
    let mut plan = client_plan(if udp { UDP } else { TCP }, 0, flags);
    let packet = plan.build();
    plan.destination = server_end(0);
    let call = Call::Inbound { packet: &packet, clock };
    check(book, call, answer, &plan.build(), &counts).is_ok()
}

/// An outbound packet of a server for client 0.
fn outbound(book: &mut Book, server: usize, flags: u8, clock: u32, answer: Answer) -> bool {
    let mut plan = packets::tcp(server_end(server), client(0), flags);
    let packet = plan.build();
    plan.source = VIRTUAL;
    let counts = [u32::from(!book.entries.is_empty() && answer != ENDED), 0];
    let call = Call::Outbound { packet: &packet, clock };
    check(book, call, answer, &plan.build(), &counts).is_ok()
}

fn tick(book: &mut Book, clock: u32, answer: Answer, counts: [u32; 2]) -> bool {
    check(book, Call::Tick { clock }, answer, &[], &counts).is_ok()
}

fn open_book() -> Book {
    let mut book = set_up_book(TCP);
    assert!(inbound(&mut book, SYN, 10, OPENED, [1, 0]));
    book
}

#[test]
fn a_true_list() {
    let mut book = open_book();
    assert!(inbound(&mut book, ACK, 11, KEPT, [1, 0]));
    assert!(outbound(&mut book, 0, FIN, 12, KEPT));
    assert!(outbound(&mut book, 1, FIN, 12, Answer::Refused(12)));
    assert!(inbound(&mut book, FIN, 20, KEPT, [1, 0]));
    assert!(tick(&mut book, 139, Answer::Number(0), [1, 0]));
    assert!(tick(&mut book, 138, Answer::Refused(11), [1, 0]));
    assert!(tick(&mut book, 140, Answer::Number(1), [0, 0]));
    assert!(inbound(&mut book, ACK, 140, Answer::Refused(12), [0, 0]));
    assert!(inbound(&mut book, SYN, 141, Answer::Refused(13), [0, 0]));
    assert!(inbound(&mut book, SYN, 142, Answer::Refused(14), [0, 0]));
    assert_eq!(book.clock, 142, "12, 13 and 14 show an accepted clock");
    assert!(inbound(&mut book, SYN, 150, OPENED, [1, 0]));
    assert!(inbound(&mut book, RST, 150, ENDED, [0, 0]));
}

#[test]
fn wrong_counts() {
    assert!(!inbound(&mut set_up_book(TCP), SYN, 1, OPENED, [0, 0]));
    assert!(!inbound(&mut set_up_book(TCP), SYN, 1, OPENED, [0, 1]));
    assert!(!inbound(&mut open_book(), RST, 10, ENDED, [1, 0]));
    for (told, fine) in [(0, false), (1, true), (2, false)] {
        let call = Call::Count { number: 0 };
        let verdict = check(&mut open_book(), call, Answer::Number(told), &[], &[1, 0]);
        assert_eq!(verdict.is_ok(), fine);
    }
    let short = check(&mut open_book(), Call::Count { number: 1 }, Answer::Number(0), &[], &[1]);
    assert!(short.is_err(), "a count is missing");
}

#[test]
fn wrong_tick_numbers() {
    assert!(!tick(&mut open_book(), 909, Answer::Number(1), [0, 0]));
    assert!(!tick(&mut open_book(), 909, Answer::Number(1), [1, 0]));
    assert!(!tick(&mut open_book(), 910, Answer::Number(0), [0, 0]));
    assert!(!tick(&mut open_book(), 910, Answer::Number(0), [1, 0]));
    assert!(tick(&mut open_book(), 910, Answer::Number(1), [0, 0]));
}

#[test]
fn wrong_11() {
    assert!(!tick(&mut open_book(), 9, Answer::Number(0), [1, 0]));
    assert!(!tick(&mut open_book(), 10, Answer::Refused(11), [1, 0]));
    assert!(!inbound(&mut open_book(), ACK, 9, KEPT, [1, 0]));
    assert!(!inbound(&mut open_book(), ACK, 9, Answer::Refused(12), [1, 0]));
    assert!(!inbound(&mut open_book(), ACK, 10, Answer::Refused(11), [1, 0]));
    assert!(inbound(&mut open_book(), ACK, 9, Answer::Refused(11), [1, 0]));
}

#[test]
fn wrong_12() {
    assert!(!inbound(&mut open_book(), ACK, 10, Answer::Refused(12), [1, 0]));
    assert!(!inbound(&mut open_book(), ACK, 910, KEPT, [1, 0]));
    assert!(!inbound(&mut set_up_book(TCP), ACK, 0, OPENED, [1, 0]));
    assert!(!inbound(&mut set_up_book(TCP), SYN, 0, Answer::Refused(12), [0, 0]));
    assert!(!inbound(&mut set_up_book(UDP), 0, 0, Answer::Refused(12), [0, 0]));
    assert!(!outbound(&mut open_book(), 1, ACK, 10, Answer::Passed(1, Change::Kept)));
    assert!(!outbound(&mut open_book(), 0, ACK, 10, Answer::Refused(12)));
    assert!(!outbound(&mut set_up_book(TCP), 0, SYN, 0, OPENED));
}

#[test]
fn wrong_change() {
    assert!(!inbound(&mut open_book(), RST, 10, KEPT, [1, 0]));
    assert!(!inbound(&mut open_book(), ACK, 10, ENDED, [0, 0]));
    assert!(!inbound(&mut open_book(), SYN, 10, OPENED, [2, 0]), "a client with two entries");
    assert!(!inbound(&mut set_up_book(TCP), SYN, 10, KEPT, [0, 0]), "kept without an entry");
}

/// A book whose one entry, of client 0 and server 0, both have finished at 20.
fn finished_book() -> Book {
    let mut book = open_book();
    assert!(inbound(&mut book, FIN, 20, KEPT, [1, 0]));
    assert!(outbound(&mut book, 0, FIN, 20, KEPT));
    book
}

#[test]
fn a_renewal_strikes_the_entry_and_adds_one() {
    let mut book = finished_book();
    assert!(inbound(&mut book, SYN, 30, OPENED, [1, 0]));
    let entry = book.entries[0];
    assert_eq!((entry.server, entry.both_finished(), entry.last), (0, false, 30));
    assert!(tick(&mut book, 929, Answer::Number(0), [1, 0]));

    let mut to_another = finished_book();
    let came = client_plan(TCP, 0, SYN).build();
    let left = packets::tcp(client(0), server_end(1), SYN).build();
    let call = Call::Inbound { packet: &came, clock: 30 };
    check(&mut to_another, call, Answer::Passed(1, Change::Opened), &left, &[0, 1]).unwrap();
}

#[test]
fn only_a_finished_entry_is_struck() {
    for finished in [None, Some(true), Some(false)] {
        for counts in [[1, 0], [2, 0]] {
            let mut book = open_book();
            let fine = match finished {
                None => true,
                Some(true) => inbound(&mut book, FIN, 20, KEPT, [1, 0]),
                Some(false) => outbound(&mut book, 0, FIN, 20, KEPT),
            };
            assert!(
                fine && !inbound(&mut book, SYN, 30, OPENED, counts),
                "{finished:?} {counts:?}"
            );
        }
    }
}

#[test]
fn only_such_a_packet_strikes() {
    for flags in [ACK, SYN | ACK, SYN | FIN, 0] {
        assert!(!inbound(&mut finished_book(), flags, 30, OPENED, [1, 0]), "flags {flags:02X}");
    }
    assert!(!outbound(&mut finished_book(), 0, SYN, 30, OPENED));
    let mut refused = finished_book();
    assert!(inbound(&mut refused, SYN, 30, Answer::Refused(14), [1, 0]));
    assert_eq!((refused.entries, refused.clock), (finished_book().entries, 30));
}

#[test]
fn wrong_server_and_wrong_journey() {
    let other = Answer::Passed(1, Change::Kept);
    assert!(!inbound(&mut open_book(), ACK, 10, other, [1, 0]));
    let none = Answer::Passed(2, Change::Opened);
    assert!(!inbound(&mut set_up_book(TCP), SYN, 10, none, [0, 0]));
    let packet = client_plan(TCP, 0, ACK).build();
    let call = Call::Inbound { packet: &packet, clock: 10 };
    let untouched = check(&mut open_book(), call, KEPT, &packet, &[1, 0]);
    assert!(untouched.is_err(), "a packet left as it came");
    let gone = check(&mut open_book(), call, KEPT, &[], &[1, 0]);
    assert!(gone.is_err(), "no packet left");
    let mut elsewhere = packets::tcp(server_end(0), client(0), ACK);
    let packet = elsewhere.build();
    elsewhere.destination = client(1);
    let call = Call::Outbound { packet: &packet, clock: 10 };
    assert!(check(&mut open_book(), call, KEPT, &elsewhere.build(), &[1, 0]).is_err());
}

#[test]
fn a_packet_that_6_20_and_7_to_10_refuse_is_answered_before_11() {
    let elsewhere = packets::tcp(client(0), (1, 1), ACK).build();
    let mut bad_checksum = client_plan(TCP, 0, ACK).build();
    packets::spoil_header(&mut bad_checksum, 0);
    for (packet, number) in [(elsewhere, 10), (bad_checksum, 20)] {
        for clock in [0, 10, 2_000] {
            let call = Call::Inbound { packet: &packet, clock };
            let is_fine = |answer| check(&mut open_book(), call, answer, &packet, &[1, 0]).is_ok();
            // 16 is given by nothing
            let late = [11, 12, 13, 14, 16].map(Answer::Refused);
            assert!(!is_fine(KEPT) && !late.into_iter().any(is_fine), "{number} at {clock}");
            assert!(is_fine(Answer::Refused(number)), "{number} at {clock}");
        }
    }
}

#[test]
fn other_refusals_change_nothing() {
    let mut book = open_book();
    let before = book.clone();
    let bad = servers(&[1]);
    let call = Call::SetUp { service: service(TCP, 9, 1), servers: &bad };
    check(&mut book, call, Answer::Refused(2), &[], &[1, 0]).unwrap();
    let call = Call::SetWeight { number: 7, weight: 1 };
    check(&mut book, call, Answer::Refused(5), &[], &[1, 0]).unwrap();
    check(&mut book, Call::Count { number: 7 }, Answer::Refused(5), &[], &[1, 0]).unwrap();
    assert!(tick(&mut book, 5, Answer::Refused(11), [1, 0]));
    let call = Call::Inbound { packet: &[1, 2], clock: 99 };
    check(&mut book, call, Answer::Refused(6), &[1, 2], &[1, 0]).unwrap();
    // at 2,000 the entry is idle, but the clock isn't accepted
    let mut packet = client_plan(TCP, 0, ACK).build();
    packets::spoil_header(&mut packet, 0);
    let call = Call::Inbound { packet: &packet, clock: 2_000 };
    check(&mut book, call, Answer::Refused(20), &packet, &[1, 0]).unwrap();
    assert_eq!(book, before);
}

#[test]
fn answers_of_the_wrong_kind() {
    let weight = Call::SetWeight { number: 0, weight: 1 };
    assert!(check(&mut open_book(), weight, Answer::Number(1), &[], &[1, 0]).is_err());
    assert!(!tick(&mut open_book(), 10, Answer::Done, [1, 0]));
    assert!(!inbound(&mut open_book(), ACK, 10, Answer::Number(0), [1, 0]));
    let count = Call::Count { number: 0 };
    assert!(check(&mut open_book(), count, KEPT, &[], &[1, 0]).is_err());
}

#[test]
fn refusing_everything_satisfies_the_book() {
    let mut book = Book::new();
    let all = servers(&[1]);
    let call = Call::SetUp { service: service(TCP, 1, 1), servers: &all };
    check(&mut book, call, Answer::Refused(1), &[], &[]).unwrap();
    check(&mut book, Call::Tick { clock: 3 }, Answer::Refused(15), &[], &[]).unwrap();
    let packet = client_plan(TCP, 0, SYN).build();
    let call = Call::Inbound { packet: &packet, clock: 3 };
    check(&mut book, call, Answer::Refused(15), &packet, &[]).unwrap();
    assert_eq!(book, Book::new());
}
