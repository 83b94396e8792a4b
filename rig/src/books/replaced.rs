//! What a new process of the director said when it followed another, held against the packets.

use crate::books::looks::{now, Clock, Look, Reading};
use crate::books::packets::PacketBook;
use crate::lab::director::Director;
use crate::lab::replacement::Replacement;
use crate::lab::{ensure, fail, Failure};

/// A process of the director was replaced by another.
#[derive(Clone, Copy, Debug)]
pub struct Replaced {
    /// How.
    pub how: Replacement,
    /// When, and the clock that the new one told.
    pub reading: Reading,
    /// With how many connections it goes on, by its own words.
    pub connections: u32,
}

impl Replaced {
    /// Replaces it now.
    pub fn replace(director: &Director, how: Replacement) -> Result<Replaced, Failure> {
        let before = now();
        let handover = director.replace(how)?;
        let reading = Reading { before, after: now(), clock: handover.clock };
        Ok(Replaced { how, reading, connections: handover.connections })
    }

    /// Whether the look was taken while one process followed the other.
    pub fn was_seen_by(&self, look: &Look) -> bool {
        look.after >= self.reading.before && look.before <= self.reading.after
    }

    /// It must have gone on with the connections that the packets say; at a take-over the director must have written on all that
    /// it was handed.
    pub fn check(&self, book: &PacketBook, clock: &Clock) -> Result<(), Failure> {
        let Replaced { how, reading, connections } = self;
        let (least, most) = book.bounds(reading, clock, |_| true);
        let right = (least..=most).contains(connections);
        let words =
            format!("{connections} connections at a {how}, and the packets say {least} to {most}");
        ensure(right, words)?;
        match book.lost(&(reading.before..=reading.after)) {
            Some(packet) if *how == Replacement::TakeOver => {
                fail(format!("a packet was lost at a {how}: {packet}"))
            }
            _ => Ok(()),
        }
    }
}
