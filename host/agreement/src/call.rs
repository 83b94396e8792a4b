//! A call with its arguments, and what is told of it.

use crate::world::World;
use nidhaaguf::Refusal;
use reference::book;
use reference::{Answer, Change, Server, Service, PLACES};
use std::fmt;

/// The row that a setup is lent.
#[derive(Clone, Copy, Debug, PartialEq, Eq)]
pub enum Lending {
    /// The row that the call before gave back.
    Present,
    /// Another one, of so many words, filled with a number.
    Fresh { words: usize, filled: u32 },
}

/// A call with its arguments, without state and row.
#[derive(Clone, PartialEq, Eq)]
pub enum Call {
    SetUp { service: Service, servers: Box<[Server; PLACES]>, row: Lending },
    SetWeight { number: u32, weight: u16 },
    Count { number: u32 },
    Tick { clock: u32 },
    Inbound { packet: Vec<u8>, clock: u32 },
    Outbound { packet: Vec<u8>, clock: u32 },
}

impl Call {
    pub fn packet(&self) -> &[u8] {
        match self {
            Call::Inbound { packet, .. } | Call::Outbound { packet, .. } => packet,
            _ => &[],
        }
    }

    /// The clock of a tick or packet.
    pub fn clock(&self) -> Option<u32> {
        match *self {
            Call::Tick { clock } | Call::Inbound { clock, .. } | Call::Outbound { clock, .. } => {
                Some(clock)
            }
            _ => None,
        }
    }

    /// The row that the call is lent.
    pub fn row(&self, world: &World) -> Vec<u32> {
        match *self {
            Call::SetUp { row: Lending::Fresh { words, filled }, .. } => vec![filled; words],
            _ => world.row.clone(),
        }
    }

    /// Whether the lent row is the list's row after the call: a fresh one only if setup took it.
    pub fn keeps_row(&self, told: Told) -> bool {
        let fresh = matches!(self, Call::SetUp { row: Lending::Fresh { .. }, .. });
        !fresh || told.refusal == 0
    }

    /// The book's form of the call.
    pub fn for_book(&self) -> book::Call<'_> {
        match *self {
            Call::SetUp { service, ref servers, .. } => book::Call::SetUp { service, servers },
            Call::SetWeight { number, weight } => book::Call::SetWeight { number, weight },
            Call::Count { number } => book::Call::Count { number },
            Call::Tick { clock } => book::Call::Tick { clock },
            Call::Inbound { ref packet, clock } => book::Call::Inbound { packet, clock },
            Call::Outbound { ref packet, clock } => book::Call::Outbound { packet, clock },
        }
    }
}

/// An answer as the C library tells it.
#[derive(Clone, Copy, Debug, PartialEq, Eq)]
pub struct Told {
    pub refusal: u32,
    pub number: u32,
    pub change: u32,
}

impl Told {
    pub fn of(answer: Answer) -> Told {
        match answer {
            Answer::Done => Told { refusal: 0, number: 0, change: 0 },
            Answer::Number(number) => Told { refusal: 0, number, change: 0 },
            Answer::Passed(number, Change::Opened) => Told { refusal: 0, number, change: 1 },
            Answer::Passed(number, Change::Kept) => Told { refusal: 0, number, change: 2 },
            Answer::Passed(number, Change::Ended) => Told { refusal: 0, number, change: 3 },
            Answer::Refused(refusal) => Told { refusal: u32::from(refusal), number: 0, change: 0 },
        }
    }

    /// The answer to this call, or None where such a call is never answered so.
    pub fn answer(self, call: &Call) -> Option<Answer> {
        let answer = match (self.refusal, call, self.change) {
            (0, Call::SetUp { .. } | Call::SetWeight { .. }, _) => Answer::Done,
            (0, Call::Count { .. } | Call::Tick { .. }, _) => Answer::Number(self.number),
            (0, _, 1) => Answer::Passed(self.number, Change::Opened),
            (0, _, 2) => Answer::Passed(self.number, Change::Kept),
            (0, _, 3) => Answer::Passed(self.number, Change::Ended),
            (0, ..) => return None,
            (refusal, ..) => Answer::Refused(Refusal::of_number(refusal)?.number() as u8),
        };
        // numbers that should be 0 must be
        (Told::of(answer) == self).then_some(answer)
    }
}

impl fmt::Debug for Call {
    fn fmt(&self, out: &mut fmt::Formatter<'_>) -> fmt::Result {
        match self {
            Call::SetUp { service, servers, row } => {
                let used = (service.servers as usize).min(PLACES);
                write!(out, "set_up {service:?}, row {row:?}, servers {:?}", &servers[..used])
            }
            Call::SetWeight { number, weight } => write!(out, "set_weight {number} to {weight}"),
            Call::Count { number } => write!(out, "count {number}"),
            Call::Tick { clock } => write!(out, "tick at {clock}"),
            Call::Inbound { packet, clock } => write!(out, "inbound at {clock}: {}", hex(packet)),
            Call::Outbound { packet, clock } => write!(out, "outbound at {clock}: {}", hex(packet)),
        }
    }
}

/// Bytes in groups of four.
pub fn hex(bytes: &[u8]) -> String {
    let group = |part: &[u8]| part.iter().map(|byte| format!("{byte:02X}")).collect::<String>();
    let groups: Vec<String> = bytes.chunks(4).map(group).collect();
    format!("[{}] ({} bytes)", groups.join(" "), bytes.len())
}
