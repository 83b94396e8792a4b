//! What the director sends by itself, in small captures.

use super::tests::{clock, look, packet, taken, CLIENT, SERVERS, VIRTUAL};
use super::*;

/// The reset by which the director ends the client's connection on the first server.
fn ending(time: f64) -> Packet {
    packet(time, CLIENT, SERVERS[0], "R", "seq 0, win 0, length 0")
}

fn read(packets: &[&[Packet]]) -> Result<PacketBook, Failure> {
    PacketBook::read(&packets.concat(), &clock(), &[])
}

#[test]
fn a_connection_that_the_director_ends_counts_no_longer() {
    let open = taken(10.1, 0, true, "S");
    let packets = [open.to_vec(), vec![ending(20.1)]];
    let looks = [(19, [1, 0]), (20, [0, 0])];
    let looks = looks.map(|(clock, counts)| look(clock, counts));
    let book = PacketBook::read(&packets.concat(), &clock(), &[]).unwrap();
    assert_eq!(book.check(&looks, &clock()), Ok(3), "for half a second before it, either is right");
    assert_eq!(book.ended_by_director(), [CLIENT]);
    let late = look(21, [1, 0]);
    assert!(book.check(&[late], &clock()).is_err());
}

#[test]
fn only_a_connection_that_is_there_is_ended() {
    let open = taken(10.1, 0, true, "S");
    assert!(read(&[&[ending(20.1)]]).is_err(), "there is none");
    assert!(read(&[&open, &[ending(20.1)], &[ending(20.2)]]).is_err(), "it was ended already");
    let elsewhere = packet(20.1, CLIENT, SERVERS[1], "R", "seq 0, win 0, length 0");
    assert!(read(&[&open, &[elsewhere]]).is_err(), "it is on another server");
    let numbered = packet(20.1, CLIENT, SERVERS[0], "R", "seq 7, win 0, length 0");
    assert!(read(&[&open, &[numbered]]).is_err(), "the director knows no numbers");
}

#[test]
fn both_ends_are_asked_after_an_end_and_only_then() {
    let open = taken(10.1, 0, true, "S");
    let asked = [(VIRTUAL, CLIENT), (CLIENT, SERVERS[0])]
        .map(|(from, to)| packet(20.2, from, to, ".", "ack 0, win 0, length 0"));
    assert!(read(&[&open, &[ending(20.1)], &asked]).is_ok());
    assert!(read(&[&open, &asked]).is_err());
}

#[test]
fn a_refused_packet_is_answered_once_by_the_reset_that_fits() {
    let refused = packet(10.1, CLIENT, VIRTUAL, ".", "ack 77, win 5, length 0");
    let reset = packet(10.2, VIRTUAL, CLIENT, "R", "seq 77, win 0, length 0");
    let book = read(&[&[refused.clone(), reset.clone()]]).unwrap();
    assert_eq!((book.answered(), book.refused.len()), (1, 1));
    let wrong = packet(10.2, VIRTUAL, CLIENT, "R", "seq 78, win 0, length 0");
    let elsewhere = packet(10.2, CLIENT, SERVERS[0], "R", "seq 77, win 0, length 0");
    for answers in [vec![wrong], vec![elsewhere], vec![reset.clone(), reset]] {
        assert!(read(&[&[refused.clone()], &answers]).is_err(), "{answers:?}");
    }
}

#[test]
fn what_acknowledges_nothing_is_answered_by_a_reset_that_acknowledges_it() {
    let refused = packet(10.1, SERVERS[0], CLIENT, "F", "seq 40:50, win 5, length 10");
    let reset = |number: u32| {
        let content = format!("seq 0, ack {number}, win 0, length 0");
        packet(10.2, CLIENT, SERVERS[0], "R.", &content)
    };
    assert!(read(&[&[refused.clone(), reset(51)]]).is_ok());
    assert!(read(&[&[refused.clone(), reset(50)]]).is_err());
    let of_reset = packet(10.1, SERVERS[0], CLIENT, "R", "seq 40, win 5, length 0");
    assert!(read(&[&[of_reset, reset(40)]]).is_err(), "a reset is not answered");
}

#[test]
fn only_what_was_opening_for_that_long_may_be_ended_for_it() {
    let opening =
        [taken(10.1, 0, true, "S"), taken(11.1, 0, false, "S."), taken(12.1, 0, true, "S")]
            .concat();
    let ended_at = |time: f64| {
        let book = read(&[&opening, &[ending(time)]]).unwrap();
        book.check_openings_ended_after(30, &clock())
    };
    assert_eq!(ended_at(40.6), Ok(1));
    assert!(ended_at(38.1).is_err() && ended_at(71.1).is_err());
    let open = taken(12.1, 0, true, ".");
    let book = read(&[&opening, &open, &[ending(40.6)]]).unwrap();
    assert!(book.check_openings_ended_after(30, &clock()).is_err());
}

#[test]
fn a_lost_table_has_no_connections() {
    let packets = [taken(10.1, 0, true, "S"), taken(30.1, 1, true, "S")].concat();
    let loss = Moment { handed: 20.1, written: 20.2 };
    let book = PacketBook::read(&packets, &clock(), &[loss]).unwrap();
    let looks = [(19, [1, 0]), (21, [0, 0]), (30, [0, 1])];
    let looks = looks.map(|(clock, counts)| look(clock, counts));
    assert_eq!(book.check(&looks, &clock()), Ok(6));
}
