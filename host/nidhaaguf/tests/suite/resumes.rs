//! A director that is taken apart and put together again.

use nidhaaguf::raw::{self, State};
use nidhaaguf::{Director, Passed, Protocol, Refusal, Scheduler, Settings};
use random::Rng;
use reference::packets::{self, ACK, FIN, RST, SYN};
use std::collections::BTreeSet;

const VIRTUAL: packets::End = (0xC000_020A, 5432);

/// Any scheduler and protocol, few servers or all, and a weight of 0 among them.
fn settings(random: &mut Rng) -> Settings {
    let servers = random.one_of(&[1, 2, 3, 7, 64]);
    settings_of(random, servers)
}

/// The same with so many servers.
fn settings_of(random: &mut Rng, servers: u16) -> Settings {
    let service = "192.0.2.10:5432".parse().unwrap();
    let protocol = random.one_of(&[Protocol::Tcp, Protocol::Udp]);
    let empty = Settings::new(service, protocol, random.one_of(&Scheduler::ALL));
    (0..servers).fold(empty, |settings, number| {
        let at = format!("10.1.0.5:{}", 6432 + number).parse().unwrap();
        settings.server(at, random.one_of(&[0, 1, 2, 3, 6, 65_535]))
    })
}

/// Any director, after any calls.
fn director(random: &mut Rng) -> Director {
    let settings = settings(random);
    director_of(random, &settings)
}

/// The same of these settings.
fn director_of(random: &mut Rng, settings: &Settings) -> Director {
    let slots = random.one_of(&[1, 3, 20]);
    let mut director = Director::set_up(settings, slots).unwrap();
    for _ in 0..random.below(60) {
        Call::any(random, &director).make(&mut director);
    }
    director
}

/// A call with its arguments.
#[derive(Clone, Debug)]
enum Call {
    Inbound(Vec<u8>, u32),
    Outbound(Vec<u8>, u32),
    Tick(u32),
    SetWeight(usize, u16),
    Count(usize),
}

/// What a call gives.
#[derive(Debug, PartialEq, Eq)]
enum Given {
    /// A packet's answer, and its bytes then.
    Packet(Result<Passed, Refusal>, Vec<u8>),
    Number(Result<u32, Refusal>),
}

impl Call {
    fn any(random: &mut Rng, director: &Director) -> Call {
        let settings = director.settings();
        let (client, server) = ((0x0A00_0001, 1 + random.below(12) as u16), random.below(4));
        let clock = director.clock() + random.one_of(&[0, 0, 0, 1, 119, 120, 300, 900]);
        let at = (0x0A01_0005, 6432 + server as u16);
        let flags = random.one_of(&[SYN, SYN, ACK, FIN | ACK, RST]);
        let packet = |from, to| match settings.protocol {
            Protocol::Tcp => packets::tcp(from, to, flags).build(),
            Protocol::Udp => packets::udp(from, to).build(),
        };
        match random.below(10) {
            0 => Call::Tick(clock.saturating_sub(random.below(2) as u32)),
            1 => Call::SetWeight(server, random.one_of(&[0, 1, 2, 9])),
            2 => Call::Count(server),
            3 | 4 => Call::Outbound(packet(at, client), clock),
            _ => Call::Inbound(packet(client, VIRTUAL), clock),
        }
    }

    fn make(self, director: &mut Director) -> Given {
        match self {
            Call::Inbound(mut packet, clock) => {
                Given::Packet(director.inbound(&mut packet, clock), packet)
            }
            Call::Outbound(mut packet, clock) => {
                Given::Packet(director.outbound(&mut packet, clock), packet)
            }
            Call::Tick(clock) => Given::Number(director.tick(clock)),
            Call::SetWeight(server, weight) => {
                Given::Number(director.set_weight(server, weight).map(|()| 0))
            }
            Call::Count(server) => Given::Number(director.count(server)),
        }
    }
}

fn again(director: &Director) -> Result<Director, Refusal> {
    let (state, row) = director.parts();
    Director::resume(*state, row.to_vec())
}

/// Both answer every later call alike.
#[test]
fn a_resumed_director_is_the_same() {
    let mut random = Rng::new(1);
    let mut opened = 0;
    for _ in 0..1_000 {
        let mut director = director(&mut random);
        let mut resumed = again(&director).unwrap();
        assert_eq!(resumed, director);
        for _ in 0..30 {
            let call = Call::any(&mut random, &director);
            let given = call.clone().make(&mut director);
            assert_eq!(call.clone().make(&mut resumed), given, "{call:?}");
            assert_eq!(resumed, director);
        }
        opened += u32::from(director.used() > 0);
    }
    assert!(opened > 500, "only {opened} directors have connections");
}

/// What it was set up with is read off its parts, with the weights of now.
#[test]
fn settings_are_those_of_the_setup() {
    let mut random = Rng::new(2);
    for _ in 0..1_000 {
        let mut settings = settings(&mut random);
        let mut director = Director::set_up(&settings, 1).unwrap();
        assert_eq!(director.settings(), settings);
        let server = random.below(settings.servers.len());
        settings.servers[server].weight = random.number() as u16;
        director.set_weight(server, settings.servers[server].weight).unwrap();
        assert_eq!(again(&director).unwrap().settings(), settings);
    }
}

/// Parts that fit together no more, or still do: a number is another one, or the row has another length.
fn damaged(random: &mut Rng, director: &Director) -> (State, Vec<u32>) {
    let (mut state, mut row) = (*director.parts().0, director.parts().1.to_vec());
    let number = random.one_of(&[0, 1, 2, 3, 63, 64, 65, 4_095, u32::MAX]) as u64;
    let number = if random.permille(300) { random.number() } else { number };
    let (server, word) = (random.below(66).min(63), random.below(row.len()));
    match random.below(14) {
        0 => state.service.address = number as u32,
        1 => state.service.port = number as u16,
        2 => state.service.protocol = random.one_of(&[0, 6, 17, number as u8]),
        3 => state.service.scheduler = random.one_of(&[0, 1, 2, 3, 4, 5, number as u8]),
        4 => state.service.servers = number as u32,
        5 => state.clock = number as u32,
        6 => state.servers[server].count = number as u32,
        7 => state.servers[server].weight = number as u16,
        8 => state.servers[server].port = number as u16,
        9 => (state.place, state.level) = (number, random.below(4) as u16),
        10 => state.largest_weight = number as u16,
        11 => state.weight_divisor = number as u16,
        12 => row.resize(random.below(2 * row.len() + 2), 0),
        _ => row[word] = number as u32,
    }
    (state, row)
}

/// Refused exactly where the library refuses a call with these parts, and for the same reason.
#[test]
fn damaged_parts_are_judged_by_the_library() {
    let mut random = Rng::new(3);
    let (mut sound, mut unsound) = (0, 0);
    for _ in 0..20_000 {
        let director = director(&mut random);
        let (state, row) = damaged(&mut random, &director);
        let is_filled_in = random.permille(500);
        let state = if is_filled_in { state.with_largest_weight_and_divisor() } else { state };
        let answer = raw::tick(state, &mut row.clone(), state.clock);
        match Director::resume(state, row.clone()) {
            Ok(resumed) => {
                assert_eq!((answer.refusal, resumed.parts()), (0, (&state, &row[..])));
                sound += 1;
            }
            Err(refusal) => {
                assert_eq!((answer.refusal, refusal), (15, Refusal::Unsound));
                unsound += 1;
            }
        }
    }
    assert!(sound > 1_000 && unsound > 1_000, "{sound} sound, {unsound} not");
}

/// The largest weight of the servers in use and their divisor, by what the words mean.
fn meant(director: &Director) -> (u16, u16) {
    let weights = director.settings().servers.into_iter().map(|server| server.weight);
    let largest = weights.clone().max().unwrap();
    let divides_all = |divisor: &u16| weights.clone().all(|weight| weight % divisor == 0);
    (largest, (1..=largest).rev().find(divides_all).unwrap_or(0))
}

/// The state with other numbers for these two.
fn with(state: &State, (largest_weight, weight_divisor): (u16, u16)) -> State {
    State { largest_weight, weight_divisor, ..*state }
}

/// After any calls they are what is meant; and a director that was kept without them is the same again.
#[test]
fn largest_weight_and_divisor_are_filled_in() {
    let (mut random, mut met) = (Rng::new(4), BTreeSet::new());
    for _ in 0..2_000 {
        let director = director(&mut random);
        let (state, row) = director.parts();
        let numbers = meant(&director);
        assert_eq!((state.largest_weight, state.weight_divisor), numbers);
        let drawn = (random.number() as u16, random.number() as u16);
        let kept = with(state, random.one_of(&[(0, 0), numbers, drawn]));
        let resumed = Director::resume(kept.with_largest_weight_and_divisor(), row.to_vec());
        assert_eq!(resumed.as_ref(), Ok(&director));
        met.insert(numbers);
    }
    let wanted = [(0, 0), (6, 6), (6, 3), (6, 2), (6, 1), (9, 3), (9, 1), (65_535, 3)];
    assert!(wanted.iter().all(|numbers| met.contains(numbers)), "{met:?}");
}

/// Numbers beside the two that are meant: one of them wrong, or both.
fn wrong_ones(random: &mut Rng, meant: (u16, u16)) -> impl Iterator<Item = (u16, u16)> {
    let ((largest, divisor), drawn) = (meant, random.number() as u16);
    let above = [largest, divisor].map(|number| number.wrapping_add(1));
    let largest_ones = [0, divisor, above[0], u16::MAX, drawn].map(|other| (other, divisor));
    let divisors = [0, 1, largest, above[1], drawn].map(|other| (largest, other));
    let both = [(0, 0), (divisor, largest), (above[0], above[0])];
    largest_ones.into_iter().chain(divisors).chain(both).filter(move |&wrong| wrong != meant)
}

/// Whatever the scheduler, and though all else is as it was.
#[test]
fn a_wrong_largest_weight_or_divisor_is_refused() {
    let mut random = Rng::new(5);
    for scheduler in Scheduler::ALL.repeat(500) {
        let settings = Settings { scheduler, ..settings(&mut random) };
        let director = director_of(&mut random, &settings);
        let (state, row) = director.parts();
        let resumed = |wrong| Director::resume(with(state, wrong), row.to_vec());
        let mut found = wrong_ones(&mut random, meant(&director)).map(resumed);
        assert!(found.all(|found| found == Err(Refusal::Unsound)), "{settings:?}");
    }
}

/// What is no director for another reason is none either when these two are right, and has no other number changed.
#[test]
fn nothing_else_is_filled_in() {
    let changes: [fn(&mut State); 14] = [
        |state| state.service.address = 0,
        |state| state.service.port = 0,
        |state| state.service.protocol = 1,
        |state| state.service.scheduler = 0,
        |state| state.service.scheduler = 5,
        |state| state.service.servers = 0,
        |state| state.service.servers = 65,
        |state| state.service.servers = u32::MAX,
        |state| state.servers[0].address = 0,
        |state| state.servers[2].port = 0,
        |state| state.servers[2].port = state.servers[1].port,
        |state| state.servers[1].count += 1,
        |state| state.servers[3].weight = 1,
        |state| state.place = 4,
    ];
    let mut random = Rng::new(6);
    for change in changes.repeat(100) {
        let settings = settings_of(&mut random, 3);
        let director = director_of(&mut random, &settings);
        let (state, row) = director.parts();
        let mut damaged = *state;
        change(&mut damaged);
        let filled_in = with(&damaged, (0, 0)).with_largest_weight_and_divisor();
        let numbers = (filled_in.largest_weight, filled_in.weight_divisor);
        assert_eq!(filled_in, with(&damaged, numbers));
        assert_eq!(Director::resume(filled_in, row.to_vec()), Err(Refusal::Unsound));
    }
}
