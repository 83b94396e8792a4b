//! Packets of the device: served by the library, told to the book, and answered where they belong to no connection.

use super::Instance;
use crate::policy::Unknown;
use crate::segments::Segment;
use nidhaaguf::{Refusal, Served, TakenPacket, Trace};
use std::fs::File;
use std::io::Write;
use std::os::fd::AsFd;

impl Instance {
    /// Serves packets of a device at the second of the latest tick, until a read gives nothing or `most` are taken; or, so that it is
    /// answered at once, until one has come that may be answered with a reset.
    pub fn serve(
        &mut self,
        device: impl AsFd,
        trace: &mut Trace,
        most: u32,
    ) -> Result<Served, Refusal> {
        let (clock, stop) = (self.director.clock(), self.stop());
        let packets = &mut self.counters.packets;
        let served = self.director.serve(&device, trace, packets, clock, most, stop)?;
        self.counters.write_failures += u64::from(served.unsent);
        trace.packets().for_each(|packet| self.take_note(&packet, clock));
        if stop.is_some() && trace.last().is_some_and(|last| last.answer.err() == stop) {
            self.resets.count_early_end();
        }
        self.count_idle(served.removed);
        self.send(device);
        Ok(served)
    }

    /// Writes the program's own segments to the device: who has the director has that too.
    pub fn send(&mut self, device: impl AsFd) {
        let segments = std::mem::take(&mut self.outbox);
        if segments.is_empty() {
            return;
        }
        let file = device.as_fd().try_clone_to_owned().map(File::from);
        let is_unsent = |segment: &&[u8; _]| match &file {
            Ok(file) => (&*file).write(&segment[..]).is_err(),
            Err(_) => true,
        };
        self.counters.write_failures += segments.iter().filter(is_unsent).count() as u64;
    }

    /// The refusal behind which a serve is to end.
    fn stop(&mut self) -> Option<Refusal> {
        let Unknown::Reset(limit) = self.policy.unknown else { return None };
        let are_awaited = self.resets.are_awaited(limit, self.director.clock());
        are_awaited.then_some(Refusal::NoConnection)
    }

    fn take_note(&mut self, packet: &TakenPacket<'_>, clock: u32) {
        match packet.answer {
            Ok(_) => self.book.take(packet, clock),
            Err(Refusal::NoConnection) => self.answer_unknown(packet.bytes, clock),
            Err(Refusal::MalformedHeader) if is_ipv6(packet.bytes) => {
                self.counters.ipv6[packet.way as usize] += 1;
            }
            Err(_) => {}
        }
    }

    fn answer_unknown(&mut self, packet: &[u8], clock: u32) {
        let Unknown::Reset(limit) = self.policy.unknown else { return };
        let Some(answer) = Segment::answer_to(packet) else { return };
        if self.resets.may_send(limit, clock) {
            self.outbox.push(answer.bytes());
            self.counters.resets_sent += 1;
        } else {
            self.counters.resets_unsent += 1;
        }
    }
}

/// By the version, which is the first half of the first byte.
fn is_ipv6(packet: &[u8]) -> bool {
    packet.first().is_some_and(|first| first >> 4 == 6)
}
