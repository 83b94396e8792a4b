//! What a serve has to leave, by the reference's single calls and the header's words.

use super::call::{Many, Serve, FILLED_BYTE, FILLED_WORD};
use super::ends::{take, Ended};
use super::left::Left;
use super::other_end::{OtherEnd, Seen};
use super::sides::ToldOfMany;
use super::singly::{Singly, Step};
use super::wanted::Wanted;
use crate::world::World;
use nidhaaguf::raw::{COUNTERS, WORDS_PER_TRACED};

/// Counters of one way: three changes, and the refusals by their number up to 20.
pub const EACH_WAY: usize = 23;
const _: () = assert!(2 * EACH_WAY == COUNTERS);

pub fn wanted(many: &Many, serve: Serve, world: &World) -> Wanted {
    let mut singly = Singly::new(world, many.clock);
    let packets = many.packets.iter().map(|packet| packet.bytes.clone()).collect();
    let sent = serve.other_end.sent(packets);
    let (reads, ended) = take(&mut singly, &serve, &sent);
    let accepted = singly.steps.iter().filter(|step| step.told.refusal == 0);
    let mut written: Vec<Vec<u8>> = accepted.map(|step| step.left.clone()).collect();
    let mut told = ToldOfMany::of_tick(singly.tick);
    told.taken = singly.steps.len() as u32;
    if serve.other_end == OtherEnd::Unreceiving {
        told.unsent = written.len() as u32;
        written.clear();
    }
    let left = Left {
        told,
        state: singly.world.state,
        row: Some(singly.world.row.clone()),
        bytes: Some(buffer(&serve, &singly.steps)),
        records: Some(records(&serve, &singly.steps)),
        counters: Some(counters(&serve, &singly.steps)),
        seen: Seen { written, unread: sent[reads..].to_vec() },
        would_wait: ended == Ended::ByAFailedRead,
    };
    Wanted { left, singly, ended: Some(ended) }
}

/// "its bytes stand in the buffer behind those of packet k - 1: rewritten, if it is accepted, and as it came, if not"
fn buffer(serve: &Serve, steps: &[Step]) -> Vec<u8> {
    let mut buffer = Vec::with_capacity(serve.buffer);
    steps.iter().for_each(|step| buffer.extend_from_slice(&step.left));
    buffer.resize(serve.buffer, FILLED_BYTE);
    buffer
}

/// "packet k has the five words of the records from 5 k on"
fn records(serve: &Serve, steps: &[Step]) -> Vec<u32> {
    let mut words = vec![FILLED_WORD; serve.words];
    for (record, step) in words.chunks_exact_mut(WORDS_PER_TRACED).zip(steps) {
        let (length, way) = (step.came.len() as u32, step.way as u32);
        let told = &step.told;
        record.copy_from_slice(&[length, way, told.refusal, told.number, told.change]);
    }
    words
}

fn counters(serve: &Serve, steps: &[Step]) -> Vec<u64> {
    let mut counters = serve.lent_counters();
    for step in steps {
        let counter = &mut counters[counter_of(step)];
        *counter = counter.wrapping_add(1);
    }
    counters.to_vec()
}

/// "counters[23 * way + i]: i = 0 opened, 1 kept, 2 ended, 2 + n refusal n"
pub fn counter_of(step: &Step) -> usize {
    let place = match step.told.refusal {
        0 => step.told.change - 1,
        refusal => 2 + refusal,
    };
    EACH_WAY * step.way as usize + place as usize
}
