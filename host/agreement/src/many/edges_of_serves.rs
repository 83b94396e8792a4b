//! Which edges of serves a run has met: each reason to end by itself, and what stands beside it.

use super::call::Serve;
use super::edges::{is_accepted, Edge, Moment};
use super::ends::{Ended, Reasons, LONGEST};
use super::other_end::OtherEnd;
use super::served::counter_of;
use super::singly::Step;

const NONE: Reasons = Reasons { most: false, records: false, room: false, stop: false };
const MOST: Reasons = Reasons { most: true, ..NONE };
const RECORDS: Reasons = Reasons { records: true, ..NONE };
const ROOM: Reasons = Reasons { room: true, ..NONE };
const STOP: Reasons = Reasons { stop: true, ..NONE };

pub(super) const SERVES: [Edge<Serve>; 30] = [
    ("ended by an empty datagram", |m, serve| {
        m.is_ended(Ended::ByAnEmptyRead) && serve.buffer > 0 && m.unread() > 0
    }),
    ("ended with nothing to read", |m, _| m.is_ended(Ended::ByAFailedRead)),
    ("ended by most alone", |m, _| m.is_ended_by(MOST) && m.taken() > 0),
    ("ended by records alone", |m, _| m.is_ended_by(RECORDS) && m.taken() > 0),
    ("ended by room alone", |m, _| m.is_ended_by(ROOM)),
    ("ended by stop alone", |m, _| m.is_ended_by(STOP)),
    ("ended by two of these at once", |m, _| m.has_reasons(2)),
    ("ended by three of these at once", |m, _| m.has_reasons(3)),
    ("most 0", |m, serve| m.is_ended_by(MOST) && serve.most == 0),
    ("no whole record", |m, serve| m.is_ended_by(RECORDS) && serve.records() == 0),
    ("no record at all", |m, serve| m.is_ended_by(RECORDS) && serve.words == 0),
    ("records end with a part of one", |m, serve| m.is_ended_by(RECORDS) && serve.words % 5 > 0),
    ("more records than packets", |m, serve| m.taken() > 0 && m.taken() < serve.records()),
    ("65,535 bytes left, ended", |m, serve| m.is_ended_by(ROOM) && m.rest(serve) == LONGEST - 1),
    ("65,536 bytes left, another taken", |m, serve| m.has_just_room(serve)),
    ("buffer below 65,536, one taken", |m, serve| {
        m.is_ended_by(ROOM) && m.taken() == 1 && serve.buffer < LONGEST
    }),
    ("ended by stop 12", |m, serve| m.is_ended_by(STOP) && serve.stop == 12),
    ("ended by stop 20", |m, serve| m.is_ended_by(STOP) && serve.stop == 20),
    ("ended by another stop", |m, serve| m.is_ended_by(STOP) && !matches!(serve.stop, 12 | 20)),
    ("stop at a later refusal", |m, serve| {
        m.is_ended_by(STOP) && m.wanted.singly.has(|step| is_other_refusal(step, serve))
    }),
    ("stop that no packet gets, 12 got", |m, serve| {
        !matches!(serve.stop, 0 | 6..=14 | 20)
            && m.wanted.singly.has(|step| step.told.refusal == 12)
    }),
    ("bytes behind a packet's total", |m, _| m.wanted.singly.has(has_bytes_behind)),
    ("longer than any packet, accepted", |m, _| {
        m.wanted.singly.has(|step| is_accepted(step) && step.came.len() > LONGEST)
    }),
    ("unsent", |m, _| m.wanted.left.told.unsent > 0),
    ("nothing to send, none received", |m, serve| {
        serve.other_end == OtherEnd::Unreceiving && m.taken() > 0 && m.wanted.left.told.unsent == 0
    }),
    ("fills the buffer", |m, serve| m.first_length() == Some(serve.buffer) && !m.is_first_cut()),
    ("is cut", |m, _| m.is_first_cut()),
    ("no buffer", |m, serve| m.is_ended(Ended::ByAnEmptyRead) && serve.buffer == 0),
    ("a counter wraps", |m, serve| m.has_wrapped(serve)),
    ("tick refused, packets unread", |m, _| {
        m.is_ended(Ended::ByTheTick) && m.many.packets.len() > 1
    }),
];

fn is_other_refusal(step: &Step, serve: &Serve) -> bool {
    !is_accepted(step) && step.told.refusal != serve.stop
}

/// Accepted, with bytes that its total length leaves out.
fn has_bytes_behind(step: &Step) -> bool {
    is_accepted(step)
        && step.came.len() > usize::from(u16::from_be_bytes([step.came[2], step.came[3]]))
}

impl Moment<'_> {
    fn taken(&self) -> usize {
        self.wanted.singly.steps.len()
    }

    /// Packets that were sent, and not read.
    fn unread(&self) -> usize {
        self.wanted.left.seen.unread.iter().filter(|packet| !packet.is_empty()).count()
    }

    fn is_ended(&self, ended: Ended) -> bool {
        self.wanted.ended == Some(ended)
    }

    /// For these reasons and no others, though more could have been read.
    fn is_ended_by(&self, reasons: Reasons) -> bool {
        self.is_ended(Ended::Without(reasons)) && self.unread() > 0
    }

    fn has_reasons(&self, number: usize) -> bool {
        match self.wanted.ended {
            Some(Ended::Without(reasons)) => reasons.number() == number,
            _ => false,
        }
    }

    /// The bytes of the buffer behind the last packet.
    fn rest(&self, serve: &Serve) -> usize {
        self.wanted.singly.steps.iter().fold(serve.buffer, |rest, step| rest - step.came.len())
    }

    /// Another was taken where just enough bytes for it were left.
    fn has_just_room(&self, serve: &Serve) -> bool {
        let mut rest = serve.buffer;
        self.wanted.singly.steps.iter().enumerate().any(|(number, step)| {
            let is_just = number > 0 && rest == LONGEST;
            rest -= step.came.len();
            is_just
        })
    }

    fn first_length(&self) -> Option<usize> {
        self.wanted.singly.steps.first().map(|step| step.came.len())
    }

    fn is_first_cut(&self) -> bool {
        let sent = self.many.packets.first().map_or(0, |packet| packet.bytes.len());
        self.first_length().is_some_and(|length| length < sent)
    }

    fn has_wrapped(&self, serve: &Serve) -> bool {
        let before = serve.lent_counters();
        self.wanted.singly.steps.iter().any(|step| before[counter_of(step)] == u64::MAX)
    }
}
