//! When a serve ends, by the header's words.

use super::call::Serve;
use super::singly::{Singly, Step};

/// "fewer than 65,536 bytes of the buffer are left"
pub const LONGEST: usize = 65_536;

/// Why a serve has ended.
#[derive(Clone, Copy, Debug, PartialEq, Eq)]
pub enum Ended {
    /// The tick was refused, and nothing is read.
    ByTheTick,
    /// No further read is made, for at least one of these reasons.
    Without(Reasons),
    /// A read gave 0 bytes: an empty datagram, or there was no buffer to read into.
    ByAnEmptyRead,
    /// A read failed, as there was nothing to read.
    ByAFailedRead,
}

/// Why no further read is made: none of them depends on another, and more than one may hold.
#[derive(Clone, Copy, Debug, Default, PartialEq, Eq)]
pub struct Reasons {
    /// "`most` packets are taken"
    pub most: bool,
    /// "there is no whole record for the next"
    pub records: bool,
    /// "fewer than 65,536 bytes of the buffer are left", behind a packet
    pub room: bool,
    /// "a packet that is refused with the number `stop`"
    pub stop: bool,
}

impl Reasons {
    /// Those that hold once these packets are taken.
    fn behind(serve: &Serve, steps: &[Step], used: usize) -> Reasons {
        let last = steps.last();
        let is_stop = |step: &Step| step.told.refusal != 0 && step.told.refusal == serve.stop;
        Reasons {
            most: steps.len() >= serve.most as usize,
            records: steps.len() >= serve.records(),
            room: last.is_some() && serve.buffer - used < LONGEST,
            stop: last.is_some_and(is_stop),
        }
    }

    pub fn number(&self) -> usize {
        let Reasons { most, records, room, stop } = *self;
        [most, records, room, stop].into_iter().filter(|&holds| holds).count()
    }
}

/// Hands the single calls what a serve takes of what was sent; tells how many datagrams it reads, and why it ends.
pub fn take(singly: &mut Singly, serve: &Serve, sent: &[Vec<u8>]) -> (usize, Ended) {
    if singly.tick.refusal != 0 {
        return (0, Ended::ByTheTick);
    }
    let mut used = 0;
    loop {
        let reads = singly.steps.len();
        let reasons = Reasons::behind(serve, &singly.steps, used);
        if reasons.number() > 0 {
            return (reads, Ended::Without(reasons));
        }
        let rest = serve.buffer - used;
        match sent.get(reads) {
            // a read into an empty buffer gives 0, and takes nothing away
            _ if rest == 0 => return (reads, Ended::ByAnEmptyRead),
            None => return (reads, Ended::ByAFailedRead),
            Some(packet) if packet.is_empty() => return (reads + 1, Ended::ByAnEmptyRead),
            Some(packet) => {
                let came = packet[..packet.len().min(rest)].to_vec();
                used += came.len();
                singly.take(came);
            }
        }
    }
}
