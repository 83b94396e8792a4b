//! A wrong serve.

use crate::mistaken_many::{Mistake, Taker};
use agreement::call::Told;
use agreement::many::ends::LONGEST;
use agreement::many::served::EACH_WAY;
use agreement::many::sides::{LentToServe, ToldOfMany};
use agreement::many::singly::Way;
use reference::refusal;
use std::os::unix::net::UnixDatagram;

/// What a serve has besides state and row.
struct Serving<'a> {
    mistake: Mistake,
    descriptor: &'a UnixDatagram,
    buffer: &'a mut [u8],
    /// Where the next packet is read.
    first: usize,
    records: &'a mut [u32],
    counters: &'a mut [u64],
    stop: u32,
    served: ToldOfMany,
}

/// A packet that was taken.
struct Taken {
    way: Way,
    told: Told,
    came: Vec<u8>,
    is_unsent: bool,
}

pub fn serve(mistake: Mistake, lent: LentToServe) -> ToldOfMany {
    let LentToServe { descriptor, state, row, buffer, records, counters, clock, most, stop } = lent;
    let mut taker = Taker::new(mistake, state, row, clock);
    let (tick, goes_on) = taker.tick();
    let served = ToldOfMany::of_tick(tick);
    let most = mistake.most(most, records.len());
    let mut serving =
        Serving { mistake, descriptor, buffer, first: 0, records, counters, stop, served };
    let is_short = mistake == Mistake::NoneIntoShortBuffer && serving.buffer.len() < LONGEST;
    if !goes_on && mistake == Mistake::RefusedTickTold {
        serving.records.iter_mut().take(5).for_each(|word| *word = 0);
    }
    if !goes_on || is_short {
        return serving.served;
    }
    while taker.taken < most {
        let Some(taken) = serving.read(&mut taker) else { return serving.served };
        let is_last = taker.stops(taken.told) || serving.ends(&taken);
        if !(is_last && mistake == Mistake::LastNotTold) {
            serving.tell(taker.taken - 1, &taken);
        }
        if is_last {
            break;
        }
    }
    if mistake == Mistake::ReadsBehindTheEnd {
        let _ = descriptor.recv(&mut [0; 1]);
    }
    serving.served
}

impl Serving<'_> {
    /// A packet more, counted and written, or none.
    fn read(&mut self, taker: &mut Taker) -> Option<Taken> {
        let mut place = &mut self.buffer[self.first..];
        if self.mistake == Mistake::CutAtLongest {
            let length = place.len().min(LONGEST);
            place = &mut place[..length];
        }
        // a read into no buffer takes nothing away
        let length = if place.is_empty() { 0 } else { self.descriptor.recv(place).unwrap_or(0) };
        if length == 0 {
            self.served.taken += u32::from(self.mistake == Mistake::EmptyReadTaken);
            return None;
        }
        self.served.taken += 1;
        let packet = &mut place[..length];
        let came = packet.to_vec();
        let (way, told) = taker.packet(packet);
        let counter = &mut self.counters[self.mistake.counter(way, told)];
        *counter = counter.wrapping_add(1);
        let unsent = self.mistake.unsent(self.descriptor, packet, told);
        self.served.unsent += unsent;
        match (self.mistake, told.refusal) {
            (Mistake::AcceptedAsItCame, 0) => packet.copy_from_slice(&came),
            (Mistake::RefusedChanged, 1..) => packet[length - 1] ^= 1,
            _ => {}
        }
        self.first += self.mistake.step(length, told);
        if let (Mistake::BytePastLastPacketTouched, [byte, ..]) =
            (self.mistake, &mut place[length..])
        {
            *byte = 0;
        }
        Some(Taken { way, told, came, is_unsent: unsent > 0 })
    }

    /// Writes the record of packet k.
    fn tell(&mut self, k: usize, taken: &Taken) {
        if self.mistake == Mistake::UnsentNotTold && taken.is_unsent {
            return;
        }
        let k = if self.mistake == Mistake::RecordOfNextPlace { k + 1 } else { k };
        let record = self.mistake.record(taken);
        let words = self.records.iter_mut().skip(5 * k);
        words.zip(record).for_each(|(word, told)| *word = told);
        if self.mistake == Mistake::WordPastLastRecordTouched {
            self.records.iter_mut().skip(5 * k + 5).take(1).for_each(|word| *word = 0);
        }
    }

    /// Whether it ends behind this packet.
    fn ends(&self, taken: &Taken) -> bool {
        let Taken { way, told, .. } = taken;
        let rest = self.buffer.len() - self.first;
        let has_room = match self.mistake {
            Mistake::GoesOnWithLessRoom => rest >= LONGEST - 1,
            Mistake::EndsWithJustRoom => rest > LONGEST,
            _ => rest >= LONGEST,
        };
        let is_stop = match self.mistake {
            Mistake::StopIgnored => false,
            Mistake::StopAtAccepted => told.refusal == self.stop,
            Mistake::StopAtAnyRefusal => told.refusal != 0 && self.stop != 0,
            Mistake::StopByLowByte => told.refusal != 0 && told.refusal == self.stop % 256,
            Mistake::StopForInboundAlone if *way == Way::Outbound => false,
            _ => told.refusal != 0 && told.refusal == self.stop,
        };
        is_stop || !has_room
    }
}

impl Mistake {
    /// How many packets may be taken, by most and by the words of records.
    fn most(self, most: u32, words: usize) -> usize {
        let (most, records) = (most as usize, words / 5);
        let (most, records) = match self {
            Mistake::OneMoreThanMost => (most + 1, records),
            Mistake::OneFewerThanMost => (most.saturating_sub(1), records),
            Mistake::OneMoreThanRecords => (most, records + 1),
            Mistake::OneFewerThanRecords => (most, records.saturating_sub(1)),
            Mistake::PartOfARecordTaken => (most, words.div_ceil(5)),
            _ => (most, records),
        };
        most.min(records)
    }

    /// How far behind this packet the next one is read.
    fn step(self, length: usize, told: Told) -> usize {
        match self {
            Mistake::EachAtTheBeginning => 0,
            Mistake::RefusedReadOver if told.refusal != 0 => 0,
            _ => length,
        }
    }

    fn record(self, taken: &Taken) -> [u32; 5] {
        let Taken { way, told, came, .. } = taken;
        let is_accepted = told.refusal == 0;
        let mut record = [came.len() as u32, *way as u32, told.refusal, told.number, told.change];
        match self {
            Mistake::WayToldWrong => record[1] ^= 1,
            Mistake::WayToldByAnswer if !is_accepted => record[1] = 0,
            Mistake::LengthOffByOne => record[0] -= 1,
            Mistake::LengthOfTotal if is_accepted => {
                record[0] = u16::from_be_bytes([came[2], came[3]]).into()
            }
            Mistake::RefusedToldAsAccepted if !is_accepted => {
                record[2..].copy_from_slice(&[0, 0, 2])
            }
            Mistake::ServerOfRefusedToldAsOther if !is_accepted => record[3] = u32::MAX,
            _ => {}
        }
        record
    }

    fn counter(self, way: Way, told: Told) -> usize {
        let way = way as usize ^ usize::from(self == Mistake::CountedForOtherWay);
        let place = refusal::ALL.iter().position(|&number| u32::from(number) == told.refusal);
        let answer = match place {
            None => told.change as usize - 1,
            Some(place) if self == Mistake::CountedWithoutGaps => 3 + place,
            Some(_) => told.refusal as usize + 2,
        };
        EACH_WAY * way + answer
    }

    /// Writes the packet if it is to be written, and tells how often that failed.
    fn unsent(self, descriptor: &UnixDatagram, packet: &[u8], told: Told) -> u32 {
        let times = match (self, told.refusal) {
            (Mistake::RefusedWritten, _) => 1,
            (Mistake::AcceptedWrittenTwice, 0) => 2,
            (_, 0) => 1,
            _ => 0,
        };
        let failed = (0..times).filter(|_| descriptor.send(packet).is_err()).count();
        if self == Mistake::UnsentNotCounted {
            0
        } else {
            failed as u32
        }
    }
}
