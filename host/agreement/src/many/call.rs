//! A burst or a serve with its packets, without state and row.

use super::ends::LONGEST;
use super::other_end::OtherEnd;
use crate::call::hex;
use nidhaaguf::raw::{COUNTERS, PLACE, WORDS_PER_RECORD, WORDS_PER_TRACED};
use std::fmt;

/// A packet that is handed in with others.
#[derive(Clone, PartialEq, Eq)]
pub struct Packet {
    pub bytes: Vec<u8>,
    /// What a burst's record tells; a serve learns the length by its read.
    pub length: u32,
}

/// How the packets are handed in.
#[derive(Clone, Debug, PartialEq, Eq)]
pub enum Form {
    Burst(Burst),
    Serve(Serve),
}

/// What a burst is lent beyond its packets.
#[derive(Clone, Copy, Debug, Default, PartialEq, Eq)]
pub struct Burst {
    /// Whole places, bytes, whole records and words past the last packet.
    pub places: usize,
    pub bytes: usize,
    pub records: usize,
    pub words: usize,
}

/// What a serve is given beside its packets.
#[derive(Clone, Copy, Debug, PartialEq, Eq)]
pub struct Serve {
    /// The buffer's length.
    pub buffer: usize,
    /// How many words of records are lent.
    pub words: usize,
    pub most: u32,
    pub stop: u32,
    /// The first counter; the others count on from it, each one more.
    pub counted: u64,
    pub other_end: OtherEnd,
}

/// A burst or a serve.
#[derive(Clone, Debug, PartialEq, Eq)]
pub struct Many {
    pub clock: u32,
    pub packets: Vec<Packet>,
    pub form: Form,
}

/// Bytes and words that no packet or answer has put there.
pub const FILLED_BYTE: u8 = 0x5A;
pub const FILLED_WORD: u32 = 0x5A5A_5A5A;

impl Packet {
    /// A packet whose record tells the right length.
    pub fn new(bytes: Vec<u8>) -> Packet {
        let length = bytes.len() as u32;
        Packet { bytes, length }
    }

    /// The place that holds it: cut there, or followed by other bytes.
    fn place(&self) -> Vec<u8> {
        let mut place = self.bytes.clone();
        place.resize(PLACE, FILLED_BYTE);
        place
    }

    /// The packet that a burst finds in its place.
    pub fn of_burst(&self) -> Vec<u8> {
        let mut place = self.place();
        place.truncate(self.length as usize);
        place
    }
}

impl Burst {
    /// The bytes that are lent, packet k at byte 2,048 k.
    pub fn lent_bytes(&self, packets: &[Packet]) -> Vec<u8> {
        let mut bytes = packets.iter().map(Packet::place).collect::<Vec<_>>().concat();
        bytes.resize(bytes.len() + self.places * PLACE + self.bytes, FILLED_BYTE);
        bytes
    }

    /// The records that are lent, as words.
    pub fn lent_words(&self, packets: &[Packet]) -> Vec<u32> {
        let record = |packet: &Packet| [packet.length, FILLED_WORD, FILLED_WORD, FILLED_WORD];
        let mut words: Vec<u32> = packets.iter().flat_map(record).collect();
        words.resize(words.len() + self.records * WORDS_PER_RECORD + self.words, FILLED_WORD);
        words
    }
}

impl Many {
    /// With these packets alone, by their places in order.
    pub fn with(&self, places: &[usize]) -> Many {
        let packets = places.iter().map(|&place| self.packets[place].clone()).collect();
        let form = match self.form {
            Form::Burst(burst) => Form::Burst(burst),
            Form::Serve(serve) => Form::Serve(serve.with(&self.packets, places)),
        };
        Many { clock: self.clock, packets, form }
    }
}

impl Serve {
    /// For these of the packets alone: the others' records and room, and their part of most, go with them. So it ends behind
    /// the same packet, and what depends on that end fails again.
    fn with(self, packets: &[Packet], places: &[usize]) -> Serve {
        let mut less = self;
        let mut end = LONGEST;
        for (place, packet) in packets.iter().enumerate() {
            end += packet.bytes.len();
            if places.binary_search(&place).is_ok() {
                continue;
            }
            if end <= self.buffer {
                less.buffer -= packet.bytes.len();
            }
            if place < self.records() {
                less.words -= WORDS_PER_TRACED;
            }
            if place < self.most as usize && self.most < u32::MAX {
                less.most -= 1;
            }
        }
        less
    }

    /// The whole records that are lent.
    pub fn records(&self) -> usize {
        self.words / WORDS_PER_TRACED
    }

    pub fn lent_counters(&self) -> [u64; COUNTERS] {
        std::array::from_fn(|place| self.counted.wrapping_add(place as u64))
    }
}

impl fmt::Debug for Packet {
    fn fmt(&self, out: &mut fmt::Formatter<'_>) -> fmt::Result {
        write!(out, "{}, told to have {}", hex(&self.bytes), self.length)
    }
}
