//! The packets that a serve has taken, and their answers.

use crate::passed::packet_verdict;
use crate::raw::{traced_words, Traced, LONGEST};
use crate::{Passed, Refusal, Way};

/// What a [`Director::serve`](crate::Director::serve) leaves of its packets: each as it left, with its answer.
///
/// It is made once and lent again and again: each serve begins it anew.
#[derive(Clone, Debug)]
pub struct Trace {
    bytes: Vec<u8>,
    records: Vec<Traced>,
    /// How many packets the latest serve took.
    taken: usize,
}

/// Room for a packet of the usual length.
const USUAL: usize = 2_048;

/// A packet that was taken.
#[derive(Clone, Copy, Debug, PartialEq, Eq)]
pub struct TakenPacket<'a> {
    /// Its bytes: accepted, it is rewritten; refused, it is as it was.
    pub bytes: &'a [u8],
    /// Which call it was given to.
    pub way: Way,
    /// Its answer.
    pub answer: Result<Passed, Refusal>,
}

impl Trace {
    /// Room for so many packets of up to 2,048 bytes; fewer, where they are longer. Any packet finds room.
    pub fn new(packets: usize) -> Trace {
        let bytes = vec![0; LONGEST + packets * USUAL];
        Trace { bytes, records: vec![Traced::default(); packets], taken: 0 }
    }

    /// The packets of the latest serve, in their order.
    pub fn packets(&self) -> impl Iterator<Item = TakenPacket<'_>> {
        let mut rest = self.bytes.as_slice();
        self.records[..self.taken].iter().map(move |record| {
            let (bytes, behind) = rest.split_at(record.length as usize);
            rest = behind;
            let way = if record.way == 0 { Way::Inbound } else { Way::Outbound };
            TakenPacket { bytes, way, answer: record.answer() }
        })
    }

    /// The last packet of the latest serve.
    pub fn last(&self) -> Option<TakenPacket<'_>> {
        self.packets().last()
    }

    /// What the library is lent: the buffer, and the records' words.
    pub(crate) fn lent(&mut self) -> (&mut [u8], &mut [u32]) {
        (&mut self.bytes, traced_words(&mut self.records))
    }

    /// A serve has taken so many packets.
    pub(crate) fn set_taken(&mut self, taken: usize) {
        self.taken = taken;
    }

    /// Whether a serve that was to stop at that refusal had to end behind its last packet, whatever would have come next.
    pub(crate) fn has_ended(&self, stop: Option<Refusal>) -> bool {
        let taken = &self.records[..self.taken];
        let used: usize = taken.iter().map(|record| record.length as usize).sum();
        let is_last = |record: &Traced| {
            self.bytes.len() - used < LONGEST
                || stop.is_some_and(|stop| record.answer() == Err(stop))
        };
        self.taken == self.records.len() || taken.last().is_some_and(is_last)
    }
}

impl Traced {
    /// The packet's answer.
    pub fn answer(&self) -> Result<Passed, Refusal> {
        packet_verdict(self.refusal, self.server, self.change)
    }
}
