//! A wrong director of bursts and serves.

use crate::mistaken_serve::serve;
use agreement::call::{Call, Told};
use agreement::many::sides::{LentToBurst, LentToServe, ManySide, ToldOfMany};
use agreement::many::singly::{single_call, way_of, Way};
use agreement::sides::{Reference, Side};
use reference::{is_sound, weights, State};

/// Bursts and serves by the reference's single calls, with a mistake in one of the two forms.
#[derive(Clone, Copy)]
pub struct MistakenMany {
    pub in_bursts: Mistake,
    pub in_serves: Mistake,
}

#[derive(Clone, Copy, Debug, PartialEq, Eq)]
pub enum Mistake {
    None,
    StopsAtFirstRefusal,
    SecondSeesStateBeforeFirst,
    RemovalLeftOut,
    RefusedTickOverlooked,
    WeightNumbersUnjudged,
    // of bursts
    LongPacketCutTo2047,
    PartOfAPlaceTaken,
    // of both, in other records
    RecordOfNextPlace,
    // of serves: what is written and counted
    CountedForOtherWay,
    CountedWithoutGaps,
    RefusedWritten,
    AcceptedWrittenTwice,
    UnsentNotCounted,
    EmptyReadTaken,
    // what is told
    WayToldWrong,
    WayToldByAnswer,
    LengthOffByOne,
    LengthOfTotal,
    RefusedToldAsAccepted,
    ServerOfRefusedToldAsOther,
    UnsentNotTold,
    LastNotTold,
    RefusedTickTold,
    WordPastLastRecordTouched,
    // what the buffer holds
    EachAtTheBeginning,
    RefusedChanged,
    AcceptedAsItCame,
    RefusedReadOver,
    BytePastLastPacketTouched,
    CutAtLongest,
    // when it ends
    OneMoreThanMost,
    OneFewerThanMost,
    OneMoreThanRecords,
    OneFewerThanRecords,
    PartOfARecordTaken,
    GoesOnWithLessRoom,
    EndsWithJustRoom,
    NoneIntoShortBuffer,
    StopIgnored,
    StopAtAccepted,
    StopAtAnyRefusal,
    StopByLowByte,
    StopForInboundAlone,
    ReadsBehindTheEnd,
}

/// Takes packets one after another.
pub struct Taker<'a> {
    mistake: Mistake,
    state: &'a mut State,
    row: &'a mut [u32],
    clock: u32,
    pub taken: usize,
    before_first: Option<(State, Vec<u32>)>,
}

impl<'a> Taker<'a> {
    pub fn new(mistake: Mistake, state: &'a mut State, row: &'a mut [u32], clock: u32) -> Self {
        Taker { mistake, state, row, clock, taken: 0, before_first: None }
    }

    /// What the tick tells, and whether packets are taken after it.
    pub fn tick(&mut self) -> (Told, bool) {
        if self.mistake == Mistake::WeightNumbersUnjudged {
            weights::make_true(self.state);
        }
        let is_later = self.clock >= self.state.clock && is_sound(self.state, self.row);
        if self.mistake == Mistake::RemovalLeftOut && is_later {
            self.state.clock = self.clock;
            return (Told { refusal: 0, number: 0, change: 0 }, true);
        }
        let tick = Call::Tick { clock: self.clock };
        let told = Reference.make(&tick, self.state, self.row, &mut []);
        (told, told.refusal == 0 || self.mistake == Mistake::RefusedTickOverlooked)
    }

    pub fn packet(&mut self, packet: &mut [u8]) -> (Way, Told) {
        if self.taken == 0 {
            self.before_first = Some((*self.state, self.row.to_vec()));
        }
        if self.taken == 1 && self.mistake == Mistake::SecondSeesStateBeforeFirst {
            let (state, row) = self.before_first.take().expect("a first packet");
            *self.state = state;
            self.row.copy_from_slice(&row);
        }
        self.taken += 1;
        let way = way_of(self.state, packet);
        let call = single_call(way, packet, self.clock);
        (way, Reference.make(&call, self.state, self.row, packet))
    }

    pub fn stops(&self, told: Told) -> bool {
        self.mistake == Mistake::StopsAtFirstRefusal && told.refusal != 0
    }
}

impl ManySide for MistakenMany {
    fn burst(&self, lent: LentToBurst) -> ToldOfMany {
        let LentToBurst { state, row, packets, records, clock } = lent;
        let mistake = self.in_bursts;
        let mut taker = Taker::new(mistake, state, row, clock);
        let (tick, goes_on) = taker.tick();
        let mut places: Vec<&mut [u8]> = packets.chunks_mut(2_048).collect();
        if mistake != Mistake::PartOfAPlaceTaken {
            places.retain(|place| place.len() == 2_048);
        }
        let most = if goes_on { records.len() / 4 } else { 0 };
        for (k, place) in places.into_iter().take(most).enumerate() {
            let longest = if mistake == Mistake::LongPacketCutTo2047 { 2_047 } else { place.len() };
            let (_, told) = taker.packet(&mut place[..(records[4 * k] as usize).min(longest)]);
            let to = if mistake == Mistake::RecordOfNextPlace { k + 1 } else { k };
            if let Some(answer) = records.get_mut(4 * to + 1..4 * to + 4) {
                answer.copy_from_slice(&[told.refusal, told.number, told.change]);
            }
            if taker.stops(told) {
                break;
            }
        }
        ToldOfMany::of_tick(tick)
    }

    fn serve(&self, lent: LentToServe) -> ToldOfMany {
        serve(self.in_serves, lent)
    }
}
