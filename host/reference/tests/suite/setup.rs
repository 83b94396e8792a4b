//! Setup: refusals 1 to 4 at their edges, and what an accepted one leaves behind.

use crate::support::*;
use reference::*;

/// Sets up over a state and row full of junk; a refusal must leave both as they were.
fn set_up_over_junk(service: Service, servers: [Server; PLACES], words: usize) -> (Answer, State) {
    let mut junk = State::new();
    junk.clock = 77;
    junk.walk.place = -9;
    junk.servers[63].count = 3;
    junk.service.servers = 5_000;
    let mut state = junk;
    let mut row = vec![0xABCD; words];
    let answer = set_up(&mut state, service, servers, &mut row);
    if answer == Answer::Done {
        assert!(row.iter().all(|&word| word == 0));
        assert!(is_sound(&state, &row));
    } else {
        assert_eq!(state, junk);
        assert!(row.iter().all(|&word| word == 0xABCD));
    }
    (answer, state)
}

fn answer(service: Service, servers: [Server; PLACES], words: usize) -> Answer {
    set_up_over_junk(service, servers, words).0
}

fn distinct() -> [Server; PLACES] {
    servers(&[1; PLACES])
}

#[test]
fn refusal_1_number_of_servers() {
    for (n, want) in [(0, 1), (1, 0), (64, 0), (65, 1), (256, 1), (u32::MAX, 1)] {
        let want = if want == 0 { Answer::Done } else { Answer::Refused(1) };
        assert_eq!(answer(service(6, 1, n), distinct(), 5), want, "{n} servers");
    }
}

#[test]
fn refusal_1_row_length() {
    let whole = [5, 10, 20_475, 20_480];
    let refused = [0, 1, 4, 6, 9, 20_476, 20_479, 20_481, 20_485, 40_960];
    for words in whole {
        assert_eq!(answer(service(6, 1, 2), distinct(), words), Answer::Done, "{words}");
    }
    for words in refused {
        assert_eq!(answer(service(6, 1, 2), distinct(), words), Answer::Refused(1), "{words}");
    }
}

#[test]
fn refusal_2_service() {
    let good = service(6, 1, 2);
    let no_address = Service { address: 0, ..good };
    let no_port = Service { port: 0, ..good };
    assert_eq!(answer(no_address, distinct(), 5), Answer::Refused(2));
    assert_eq!(answer(no_port, distinct(), 5), Answer::Refused(2));
    for protocol in 0..=255 {
        let want = if matches!(protocol, 6 | 17) { Answer::Done } else { Answer::Refused(2) };
        assert_eq!(answer(Service { protocol, ..good }, distinct(), 5), want);
    }
    for scheduler in 0..=255 {
        let want = if matches!(scheduler, 1..=4) { Answer::Done } else { Answer::Refused(2) };
        assert_eq!(answer(Service { scheduler, ..good }, distinct(), 5), want);
    }
}

#[test]
fn refusal_3_server_address_or_port() {
    for number in [0, 1, 63] {
        let mut without_address = distinct();
        without_address[number].address = 0;
        assert_eq!(answer(service(6, 1, 64), without_address, 5), Answer::Refused(3));
        let mut without_port = distinct();
        without_port[number].port = 0;
        assert_eq!(answer(service(6, 1, 64), without_port, 5), Answer::Refused(3));
    }
}

#[test]
fn refusal_4_equal_servers() {
    for (a, b) in [(0, 1), (0, 63), (62, 63), (17, 40)] {
        let mut equal = distinct();
        equal[b].address = equal[a].address;
        assert_eq!(answer(service(6, 1, 64), equal, 5), Answer::Refused(4));
        equal[b].weight = 9;
        assert_eq!(answer(service(6, 1, 64), equal, 5), Answer::Refused(4), "weight apart");
        equal[b].port += 1;
        assert_eq!(answer(service(6, 1, 64), equal, 5), Answer::Done, "port apart");
    }
    let mut same_port = distinct();
    same_port[1].address = same_port[0].address + 1;
    assert_eq!(answer(service(6, 1, 64), same_port, 5), Answer::Done, "address apart");
}

#[test]
fn a_server_may_have_the_virtual_address_and_port() {
    let mut all = distinct();
    (all[0].address, all[0].port) = VIRTUAL;
    assert_eq!(answer(service(6, 1, 1), all, 5), Answer::Done);
}

#[test]
fn order_is_1_2_3_4() {
    let mut worst = distinct();
    worst[0].port = 0;
    worst[2] = worst[1];
    let bad = Service { port: 0, ..service(6, 1, 3) };
    assert_eq!(answer(bad, worst, 4), Answer::Refused(1));
    assert_eq!(answer(Service { servers: 65, ..bad }, worst, 5), Answer::Refused(1));
    assert_eq!(answer(bad, worst, 5), Answer::Refused(2));
    assert_eq!(answer(service(6, 1, 3), worst, 5), Answer::Refused(3));
    worst[0].port = 1;
    assert_eq!(answer(service(6, 1, 3), worst, 5), Answer::Refused(4));
}

#[test]
fn places_past_the_last_server_are_not_read_and_become_zeros() {
    let mut all = distinct();
    all[2] = all[0];
    all[3].address = 0;
    all[3].weight = 5;
    let (given, state) = set_up_over_junk(service(6, 2, 2), all, 5);
    assert_eq!(given, Answer::Done);
    assert!(state.servers[2..].iter().all(|s| *s == Server::default()));
}

#[test]
fn counts_and_clock_become_zero_and_the_walk_starts() {
    let starts = [(1, 2, 0), (2, -1, 0), (3, 0, 0), (4, 0, 0)];
    for (scheduler, place, level) in starts {
        let mut all = servers(&[0, 65_535, 7]);
        all[1].count = 12;
        let (given, state) = set_up_over_junk(service(17, scheduler, 3), all, 5);
        assert_eq!(given, Answer::Done);
        assert_eq!(state.walk, Walk { place, level });
        assert_eq!(state.clock, 0);
        all[1].count = 0;
        assert_eq!(state.servers, all);
    }
}

#[test]
fn setup_again_in_a_running_director() {
    let mut director = Director::tcp(&[1, 1], 2);
    director.client_sends(0, packets::SYN, 9);
    let refused = set_up(&mut director.state, service(6, 5, 2), distinct(), &mut director.row);
    assert_eq!(refused, Answer::Refused(2));
    assert_eq!(director.counts(), [1, 0]);
    let done = set_up(&mut director.state, service(17, 4, 1), distinct(), &mut director.row);
    assert_eq!(done, Answer::Done);
    assert_eq!(director, Director::new(17, 4, &[1], 2));
}
