//! The largest weight and the divisor that the state holds: who makes them true, who leaves them, 15, scheduler 2's pick.

use crate::random::{pick, Rng};
use crate::support::*;
use crate::unsound::assert_refuses;
use reference::data::{ServerNumber, TCP, UDP};
use reference::packets::{Plan, Sum, ACK, FIN, RST, SYN};
use reference::scheduler;
use reference::*;

#[test]
fn setup_makes_them_true() {
    let mut all_but_one = [6; PLACES];
    all_but_one[PLACES - 1] = 4;
    let settings: [(&[u16], (u16, u16)); 9] = [
        (&[6, 4, 0], (6, 2)),
        (&[0, 0], (0, 0)),
        (&[5], (5, 5)),
        (&[0, 0, 7], (7, 7)),
        (&[4, 1, 4], (4, 1)),
        (&[65_535, 65_534], (65_535, 1)),
        (&[0, 65_535, 65_535], (65_535, 65_535)),
        // no two of them are without a common divisor
        (&[30, 42, 70, 105], (105, 1)),
        (&all_but_one, (6, 2)),
    ];
    for scheduler in 1..=4 {
        for (weights, want) in settings {
            let director = Director::new(TCP, scheduler, weights, 1);
            assert_eq!(director.held(), want, "{weights:?}");
        }
    }
}

#[test]
fn weight_calls_make_them_true_and_an_equal_weight_changes_nothing() {
    for scheduler in 1..=4 {
        let mut director = Director::new(TCP, scheduler, &[6, 4, 0], 6);
        let weights = [
            (0, 3, (4, 1)),
            (0, 0, (4, 4)),
            (1, 0, (0, 0)),
            (2, 9, (9, 9)),
            (0, 65_535, (65_535, 3)),
            (1, 6, (65_535, 3)),
        ];
        for (client, (number, weight, want)) in weights.into_iter().enumerate() {
            assert_eq!(director.weight(number, weight), Answer::Done);
            assert_eq!(director.held(), want);
            // the walk moves on, where it can
            director.client_sends(client, SYN, 0);
            let before = director.clone();
            assert_eq!(director.weight(number, weight), Answer::Done);
            assert_eq!(director, before);
        }
    }
}

#[test]
fn setup_does_not_read_weights_past_the_servers_in_use() {
    for scheduler in 1..=4 {
        for given in [&[6, 4, 7, 65_535], &[6, 4, 0, 9], &[6, 4, 12, 0]] {
            let (mut state, mut row) = (State::new(), vec![0; 5]);
            let service = service(TCP, scheduler, 2);
            assert_eq!(set_up(&mut state, service, servers(given), &mut row), Answer::Done);
            assert_eq!(Director { state, row }.held(), (6, 2));
        }
    }
}

fn refused_setup(
    director: &mut Director,
    spoil: fn(&mut Service, &mut [Server; PLACES]),
) -> Answer {
    let (mut service, mut given) = (service(TCP, 2, 2), servers(&[9, 9]));
    spoil(&mut service, &mut given);
    set_up(&mut director.state, service, given, &mut director.row)
}

/// A SYN of client 2, spoiled.
fn packet(director: &mut Director, spoil: fn(&mut Plan)) -> Answer {
    let mut plan = client_plan(TCP, 2, SYN);
    spoil(&mut plan);
    director.inbound(&mut plan.build(), 20)
}

/// A call's answer by name, and the call.
type Named = (&'static str, fn(&mut Director) -> Answer);

/// Calls that change no weight, for a director of weights 6, 4 and 0 with three slots at clock 20: clients 0 and 1 have a
/// connection, client 0's with server 0.
const OTHER_CALLS: [Named; 27] = [
    ("number", |director| director.count(0)),
    ("number", |director| director.tick(20)),
    ("number", |director| director.tick(920)),
    ("opened", |director| packet(director, |_| {})),
    ("kept", |director| director.client_sends(0, ACK, 20)),
    ("kept", |director| director.server_sends(0, 0, FIN, 20)),
    ("ended", |director| director.client_sends(0, RST, 20)),
    ("ended", |director| director.server_sends(0, 0, RST, 20)),
    ("1", |director| refused_setup(director, |service, _| service.servers = 65)),
    ("2", |director| refused_setup(director, |service, _| service.port = 0)),
    ("3", |director| refused_setup(director, |_, given| given[1].port = 0)),
    ("4", |director| refused_setup(director, |_, given| given[1] = given[0])),
    ("5", |director| director.weight(3, 9)),
    ("5", |director| director.count(3)),
    ("6", |director| packet(director, |plan| plan.version = Some(6))),
    ("20", |director| packet(director, |plan| plan.header_sum = Sum::Given(1))),
    ("7", |director| packet(director, |plan| plan.fragment = 0x2000)),
    ("8", |director| packet(director, |plan| plan.protocol = UDP)),
    ("9", |director| packet(director, |plan| plan.data_offset = Some(4))),
    ("10", |director| packet(director, |plan| plan.destination.1 += 1)),
    ("10", |director| director.server_sends(3, 0, ACK, 20)),
    ("11", |director| director.tick(19)),
    ("11", |director| director.client_sends(0, ACK, 19)),
    ("12", |director| director.client_sends(2, ACK, 20)),
    ("12", |director| director.server_sends(1, 0, ACK, 20)),
    ("13", |director| {
        director.place(2, [1, 1, 1, 0, 20]);
        packet(director, |_| {})
    }),
    ("15", |director| {
        director.state.servers[0].count = 9;
        director.weight(0, 9)
    }),
];

fn name(answer: Answer) -> String {
    match answer {
        Answer::Done => "done".into(),
        Answer::Number(_) => "number".into(),
        Answer::Passed(_, change) => format!("{change:?}").to_lowercase(),
        Answer::Refused(number) => number.to_string(),
    }
}

#[test]
fn every_other_call_and_every_refusal_leaves_them() {
    for scheduler in 1..=4 {
        let mut director = Director::new(TCP, scheduler, &[6, 4, 0], 3);
        assert_eq!(picks(&mut director, 0, 2)[0], 0);
        director.tick(20);
        for (want, make) in OTHER_CALLS {
            let mut director = director.clone();
            assert_eq!(name(make(&mut director)), want);
            assert_eq!(director.held(), (6, 2), "{want}");
        }
        let mut weightless = Director::new(TCP, scheduler, &[0, 0, 0], 3);
        assert_eq!(packet(&mut weightless, |_| {}), Answer::Refused(14));
        assert_eq!(weightless.held(), (0, 0));
    }
}

#[test]
fn a_refused_setup_leaves_wrong_ones_and_an_accepted_one_does_not() {
    let mut director = Director::tcp(&[6, 4, 0], 1);
    (director.state.largest_weight, director.state.weight_divisor) = (5, 3);
    let before = director.clone();
    assert_eq!(refused_setup(&mut director, |service, _| service.servers = 0), Answer::Refused(1));
    assert_eq!(director, before);
    assert_eq!(refused_setup(&mut director, |_, _| {}), Answer::Done);
    assert_eq!(director.held(), (9, 9));
}

fn are_refused(scheduler: u8, weights: [u16; 3], wrong: &[(u16, u16)]) {
    let right = Director::new(TCP, scheduler, &weights, 4);
    for &numbers in wrong {
        let mut director = right.clone();
        (director.state.largest_weight, director.state.weight_divisor) = numbers;
        assert_refuses(director, &format!("{numbers:?} of {weights:?}"));
    }
}

#[test]
fn wrong_ones_get_15_under_every_scheduler() {
    let largest = [0, 1, 2, 4, 5, 7, 6 + 256, 65_535].map(|wrong| (wrong, 2));
    let divisor = [0, 1, 3, 4, 6, 2 + 256, 65_535].map(|wrong| (6, wrong));
    let both = [(2, 6), (0, 0), (4, 4), (4, 1), (12, 4)];
    let of_zeros = [(1, 0), (0, 1), (1, 1), (65_535, 65_535)];
    for scheduler in 1..=4 {
        are_refused(scheduler, [6, 4, 0], &[&largest[..], &divisor, &both].concat());
        are_refused(scheduler, [0, 0, 0], &of_zeros);
    }
}

#[test]
fn a_weight_changed_by_hand_gets_15_unless_they_stay_true() {
    for scheduler in 1..=4 {
        let of = |weight| {
            let mut director = Director::new(TCP, scheduler, &[6, 4, 0], 4);
            director.state.servers[2].weight = weight;
            director
        };
        for weight in [1, 3, 5, 7, 8] {
            assert_refuses(of(weight), "another weight");
        }
        for weight in [0, 2, 4, 6] {
            assert!(of(weight).sound(), "{weight}");
        }
    }
}

#[test]
fn sound_exactly_with_those_found_by_trying() {
    let mut rng = Rng::new(31);
    for _ in 0..200 {
        let n = rng.below(5) + 1;
        let common = rng.one_of(&[1, 1, 2, 3, 6]);
        let weights: Vec<u16> = (0..n).map(|_| rng.below(6) as u16 * common).collect();
        let mut director = Director::new(TCP, rng.below(4) as u8 + 1, &weights, 1);
        let want = largest_and_divisor(&director.state);
        for numbers in (0..=31).flat_map(|largest| (0..=31).map(move |divisor| (largest, divisor)))
        {
            (director.state.largest_weight, director.state.weight_divisor) = numbers;
            assert_eq!(director.sound(), numbers == want, "{numbers:?} of {weights:?}");
        }
    }
}

#[test]
fn the_pick_of_scheduler_2_takes_both_from_the_state() {
    // no sound state: what is worked out from the weights is 6 and 2
    let mut state = Director::new(TCP, 2, &[6, 4], 1).state;
    (state.largest_weight, state.weight_divisor) = (5, 3);
    for (from, level) in [((-1, 0), 5), ((1, 6), 3), ((1, 4), 1), ((1, 3), 5)] {
        state.walk = Walk { place: from.0, level: from.1 };
        let after = Walk { place: 0, level };
        assert_eq!(scheduler::pick(&state), (ServerNumber(0), after));
    }
}

fn drawn_weight(rng: &mut Rng, common: u16) -> u16 {
    let any = rng.next() as u16;
    match rng.below(12) {
        0 => rng.one_of(&[65_535, 65_534, any]),
        _ => rng.below(8) as u16 * common,
    }
}

/// Sets a weight now and then, and puts the walk anywhere in its range.
fn move_on(rng: &mut Rng, director: &mut Director, common: u16) {
    let n = director.state.used_servers().len();
    if rng.permille(150) {
        let (number, weight) = (rng.below(n) as u32, drawn_weight(rng, common));
        assert_eq!(director.weight(number, weight), Answer::Done);
    }
    let largest = usize::from(director.state.largest_weight);
    if largest > 0 && rng.permille(100) {
        let (place, level) = (rng.below(n + 1) as i64 - 1, rng.below(largest) as u16 + 1);
        director.state.walk = Walk { place, level };
    }
    assert!(director.sound());
}

/// Compares up to 12 picks of a drawn director, until all weights are 0; tells how many.
fn compared_picks(rng: &mut Rng) -> usize {
    let n = rng.one_of(&[1, 2, 3, 4, 5, 17, 64]);
    let common = rng.one_of(&[1, 2, 6, 255]);
    let weights: Vec<u16> = (0..n).map(|_| drawn_weight(rng, common)).collect();
    let mut director = Director::new(TCP, 2, &weights, 1);
    for compared in 0..12 {
        move_on(rng, &mut director, common);
        if director.state.largest_weight == 0 {
            return compared;
        }
        let (number, walk) = pick(&director.state);
        assert_eq!(scheduler::pick(&director.state), (ServerNumber(number), walk));
        director.state.walk = walk;
    }
    12
}

#[test]
fn scheduler_2_picks_as_if_both_were_worked_out_anew() {
    let mut rng = Rng::new(32);
    let compared: usize = (0..2_000).map(|_| compared_picks(&mut rng)).sum();
    assert!(compared > 20_000, "{compared}");
}
