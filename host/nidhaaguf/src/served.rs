//! What became of the packets that a director has read and written itself.

use crate::raw::COUNTERS;
use crate::{Change, Refusal};
use std::io;

/// Which way a packet goes. A director tells it by the packet's destination: inbound, if that is the virtual address.
#[derive(Clone, Copy, Debug, PartialEq, Eq, Hash)]
pub enum Way {
    /// From a client to a server.
    Inbound,
    /// From a server to a client.
    Outbound,
}

/// How often packets were answered so, each way. They are added to by [`Director::serve`](crate::Director::serve) and never
/// set back.
#[derive(Clone, Debug, PartialEq, Eq)]
pub struct Counters(pub(crate) [u64; COUNTERS]);

/// Counters of one way, and of these the ones of accepted packets.
const EACH_WAY: usize = COUNTERS / 2;
const ACCEPTED: usize = 3;

impl Counters {
    /// All at 0.
    pub fn new() -> Counters {
        Counters([0; COUNTERS])
    }

    /// All of them, each way: opened, kept, ended, and the refusals by number.
    pub fn words(&self) -> &[u64; COUNTERS] {
        &self.0
    }

    /// Counters that go on from these.
    pub fn of_words(words: [u64; COUNTERS]) -> Counters {
        Counters(words)
    }

    /// Accepted packets that did this to their connection.
    pub fn accepted(&self, way: Way, change: Change) -> u64 {
        self.of(way)[change as usize]
    }

    /// Packets that were refused so.
    pub fn refused(&self, way: Way, refusal: Refusal) -> u64 {
        self.of(way)[ACCEPTED + refusal.number() as usize - 1]
    }

    /// All packets of this way.
    pub fn taken(&self, way: Way) -> u64 {
        self.of(way).iter().fold(0, |sum, &times| sum.wrapping_add(times))
    }

    fn of(&self, way: Way) -> &[u64] {
        let first = way as usize * EACH_WAY;
        &self.0[first..first + EACH_WAY]
    }
}

impl Default for Counters {
    fn default() -> Counters {
        Counters::new()
    }
}

/// What a serve has done.
#[derive(Debug)]
pub struct Served {
    /// How many idle connections were removed before the first packet.
    pub removed: u32,
    /// Packets that were read, accepted or refused.
    pub taken: u32,
    /// Of these, accepted ones that the descriptor didn't take.
    pub unsent: u32,
    /// Why it has ended.
    pub end: End,
}

/// Why a serve has ended.
#[derive(Debug)]
pub enum End {
    /// As many packets were taken as it was to take or the trace has room for, or the last one was refused as it was to stop at.
    Most,
    /// A read gave 0 bytes.
    Empty,
    /// A read failed. A signal's is [`Interrupted`](io::ErrorKind::Interrupted). Where packets were unsent, an end by 0
    /// bytes may be told as the error of their write.
    Failed(io::Error),
}

impl End {
    /// `error` is errno's after the call, which began with none.
    pub(crate) fn of(most_taken: bool, error: io::Error) -> End {
        match (most_taken, error.raw_os_error()) {
            (true, _) => End::Most,
            (false, Some(0)) => End::Empty,
            _ => End::Failed(error),
        }
    }
}
