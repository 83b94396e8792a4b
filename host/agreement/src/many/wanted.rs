//! What a burst or serve has to leave, by the reference's single calls.

use super::call::{Burst, Form, Many};
use super::ends::Ended;
use super::left::Left;
use super::other_end::Seen;
use super::served;
use super::sides::ToldOfMany;
use super::singly::Singly;
use crate::world::World;
use nidhaaguf::raw::{PLACE, WORDS_PER_RECORD};

/// What is wanted, and the single calls that it stands for.
#[derive(Debug)]
pub struct Wanted {
    pub left: Left,
    pub singly: Singly,
    /// Why it has ended; a burst ends with its packets.
    pub ended: Option<Ended>,
}

pub fn wanted(many: &Many, world: &World) -> Wanted {
    match many.form {
        Form::Burst(burst) => of_burst(many, burst, world),
        Form::Serve(serve) => served::wanted(many, serve, world),
    }
}

fn of_burst(many: &Many, burst: Burst, world: &World) -> Wanted {
    let mut singly = Singly::new(world, many.clock);
    many.packets.iter().for_each(|packet| singly.take(packet.of_burst()));
    let mut bytes = burst.lent_bytes(&many.packets);
    let mut records = burst.lent_words(&many.packets);
    let places = bytes.chunks_mut(PLACE).zip(records.chunks_mut(WORDS_PER_RECORD));
    for ((place, record), step) in places.zip(&singly.steps) {
        place[..step.left.len()].copy_from_slice(&step.left);
        record[1..].copy_from_slice(&[step.told.refusal, step.told.number, step.told.change]);
    }
    let left = Left {
        told: ToldOfMany::of_tick(singly.tick),
        state: singly.world.state,
        row: Some(singly.world.row.clone()),
        bytes: Some(bytes),
        records: Some(records),
        counters: Some(Vec::new()),
        seen: Seen::default(),
        would_wait: false,
    };
    Wanted { left, singly, ended: None }
}
