//! A case: a first state and row, and a list of calls, all from one seed.

use crate::call::{Call, Told};
use crate::choose::{self, setup, Mix};
use crate::world::World;
use crate::worlds::breaks::{self, BREAKS};
use crate::worlds::{junk, sound};
use nidhaaguf::Refusal;
use random::Rng;

/// What sort of case it is.
#[derive(Clone, Copy, Debug, PartialEq, Eq)]
pub enum Kind {
    /// A list that begins with an accepted setup; the book goes along.
    List,
    /// A sound state that no list need have made.
    Sound,
    /// A sound state with one rule broken: a place in BREAKS.
    Broken(usize),
    /// Any state.
    Junk,
}

impl Kind {
    /// Rule by rule, whether it is the one that is broken, and a call was answered 15.
    pub fn broken_rules(self, told: Told) -> impl Iterator<Item = bool> {
        let is_15 = Refusal::of_number(told.refusal) == Some(Refusal::Unsound);
        (0..BREAKS.len()).map(move |rule| is_15 && self == Kind::Broken(rule))
    }
}

/// What a case is drawn from: two numbers into one, each of them scrambled.
pub(crate) fn rng(seed: u64, number: u64) -> Rng {
    Rng::new(Rng::new(seed).number() ^ Rng::new(!number).number())
}

/// A case that is being drawn.
pub struct Case {
    pub kind: Kind,
    pub first: World,
    rng: Rng,
    /// Calls that are already drawn, the last one first.
    ready: Vec<Call>,
    /// How many are still to be drawn for the world as it then is.
    to_draw: usize,
}

impl Case {
    /// The case of this number.
    pub fn new(seed: u64, number: u64) -> Case {
        let mut rng = rng(seed, number);
        match rng.below(1_000) {
            0..=69 => Case::list(rng),
            70..=199 => Case::sound(rng),
            200..=799 => Case::broken(rng),
            _ => Case::junk(rng),
        }
    }

    fn list(mut rng: Rng) -> Case {
        // before the setup the state may be anything: setup doesn't judge it
        let first = match rng.below(3) {
            0 => World::new(),
            1 => sound::world(&mut rng),
            _ => junk::world(&mut rng),
        };
        let ready = vec![setup::good(&mut rng, &World::new())];
        let to_draw = rng.one_of(&[20, 60, 150, 300, 600]);
        Case { kind: Kind::List, first, rng, ready, to_draw }
    }

    fn sound(mut rng: Rng) -> Case {
        let first = sound::world(&mut rng);
        // from the walk as it was drawn; on a full table they meet 13
        let openings = rng.below(9);
        let ready = (0..openings).map(|_| choose::opening(&mut rng, &first)).collect();
        let to_draw = rng.one_of(&[1, 5, 20, 60]);
        Case { kind: Kind::Sound, first, rng, ready, to_draw }
    }

    fn broken(mut rng: Rng) -> Case {
        let (sound, rule, first) = breaks::world(&mut rng);
        let ready = drawn(&mut rng, &sound, 6);
        Case { kind: Kind::Broken(rule), first, rng, ready, to_draw: 0 }
    }

    fn junk(mut rng: Rng) -> Case {
        let mut first = sound::world(&mut rng);
        let ready = drawn(&mut rng, &first, 6);
        match rng.permille(300) {
            true => first = junk::world(&mut rng),
            false => junk::stir(&mut rng, &mut first),
        }
        Case { kind: Kind::Junk, first, rng, ready, to_draw: 0 }
    }

    /// The next call, for the world as it is now.
    pub fn next(&mut self, world: &World) -> Option<Call> {
        if let Some(call) = self.ready.pop() {
            return Some(call);
        }
        if self.to_draw == 0 {
            return None;
        }
        self.to_draw -= 1;
        Some(choose::call(&mut self.rng, world, Mix::Traffic))
    }
}

/// Calls for a sound world, to be made on it when it is sound no more.
fn drawn(rng: &mut Rng, world: &World, how_many: usize) -> Vec<Call> {
    (0..how_many).map(|_| choose::call(rng, world, Mix::Even)).collect()
}
