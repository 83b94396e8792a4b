//! States that no list of calls makes: spoiled, doubled or all junk. No call may panic, 15 is
//! answered exactly where the state isn't sound, and a sound state stays sound.

use super::choose::{deed, Deed};
use super::rng::Rng;
use super::{judge, Run};
use crate::support::Director;
use reference::*;

/// One word of the state or row set to an edge or a random number.
fn spoil(rng: &mut Rng, director: &mut Director) {
    let number = rng.next();
    let word = rng.one_of(&[0, 1, 2, 4, 5, 64, 65_535, 65_536, u32::MAX, number as u32]);
    let place = rng.below(66).min(63);
    let at = rng.below(director.row.len());
    let state = &mut director.state;
    match rng.below(18) {
        0 => state.service.servers = word,
        1 => state.service.scheduler = word as u8,
        2 => state.service.protocol = rng.one_of(&[0, 6, 17, word as u8]),
        3 => state.service.port = word as u16,
        4 => state.servers[place].address = word,
        5 => state.servers[place].port = word as u16,
        6 => state.servers[place].weight = word as u16,
        7 => state.servers[place].count = word,
        8 => state.walk.place = rng.one_of(&[-2, -1, 0, 1, 63, i64::MAX, i64::MIN]),
        9 => state.walk.level = word as u16,
        10 => state.clock = word,
        11 => director.row.truncate(at),
        12 => director.row[at] = word,
        13 => state.largest_weight = word as u16,
        14 => state.weight_divisor = word as u16,
        _ => double(rng, director),
    }
}

/// Copies a used slot into another, its count with it: one client in two slots.
fn double(rng: &mut Rng, director: &mut Director) {
    let slots = director.row.len() / 5;
    let (from, to) = (rng.below(slots), rng.below(slots));
    let mut words = director.slot(from);
    if words[0] != 0 && director.slot(to)[0] == 0 && director.sound() {
        words[3] = rng.below(director.state.service.servers as usize) as u32;
        words[4] -= rng.below(words[4] as usize % 500 + 1) as u32;
        director.place(to, words);
        assert!(director.sound());
    }
}

fn junk(rng: &mut Rng) -> Director {
    let mut state = State::new();
    state.service.servers = rng.next() as u32;
    state.service.protocol = rng.one_of(&[6, 17, 0]);
    state.walk.place = rng.next() as i64;
    state.largest_weight = rng.next() as u16;
    state.weight_divisor = rng.next() as u16;
    for server in &mut state.servers {
        server.address = rng.next() as u32;
        server.count = rng.next() as u32;
        server.weight = rng.next() as u16;
    }
    let words = rng.below(40);
    let row = (0..words).map(|_| rng.next() as u32).collect();
    Director { state, row }
}

/// Makes a call on any director at all. True where the state was sound.
fn try_call(director: &mut Director, deed: &Deed) -> bool {
    let before = director.clone();
    let sound = director.sound();
    let mut packet = deed.packet().to_vec();
    let answer = deed.make(director, &mut packet);
    let judged = !matches!(deed, Deed::SetUp { .. });
    if judged {
        assert_eq!(answer == Answer::Refused(15), !sound, "{deed:?}");
    }
    if sound || !judged {
        judge::effects(&before, director, deed, answer, &packet);
        assert!(director.sound() || answer != Answer::Done && !sound, "{deed:?}");
    } else {
        assert_eq!((&*director, &packet[..]), (&before, deed.packet()));
    }
    sound
}

#[test]
fn wild_states() {
    let mut rng = Rng::new(99);
    let mut run = Run::new(98);
    let (mut sound, mut unsound) = (0, 0);
    for number in 0..20_000 {
        run.step(number);
        let mut director = run.director.clone();
        // calls are chosen for the director as it was before it was spoiled
        let deeds: Vec<Deed> = (0..3).map(|_| deed(&mut rng, &director)).collect();
        match rng.below(50) {
            0 => director = junk(&mut rng),
            _ => spoil(&mut rng, &mut director),
        }
        for deed in &deeds {
            match try_call(&mut director, deed) {
                true => sound += 1,
                false => unsound += 1,
            }
        }
    }
    assert!(sound > 10_000 && unsound > 10_000, "{sound} {unsound}");
}
