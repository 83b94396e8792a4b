//! Which answers a run has met, call by call.

use crate::call::{Call, Told};
use nidhaaguf::Refusal;
use std::fmt;

const CALLS: [&str; 6] = ["set up", "weight", "count", "tick", "inbound", "outbound"];
/// What an accepted packet may have done: the library's change 1, 2 and 3.
const CHANGES: [&str; 3] = ["opened", "kept", "ended"];
/// The places of the answers in a row of the tally: accepted without a change, then the refusals, then the changes.
const REFUSALS: usize = 1;
const OPENED: usize = REFUSALS + Refusal::ALL.len();
const ANSWERS: usize = OPENED + CHANGES.len();

/// A run of this many calls must meet every answer 1,000 times; a shorter one in proportion.
const FULL_RUN: usize = 2_000_000;

/// An answer, without the number that it tells.
#[derive(Clone, Copy, Debug)]
enum Answered {
    Accepted,
    Refused(Refusal),
    /// By its place in CHANGES.
    Changed(usize),
}

/// How often each call was answered so.
#[derive(Clone, Debug)]
pub struct Tally {
    cells: [[usize; ANSWERS]; CALLS.len()],
    /// Whether the rules give that call that answer.
    is_possible: fn(usize, usize) -> bool,
}

impl Default for Tally {
    /// Of single calls.
    fn default() -> Tally {
        Tally { cells: Default::default(), is_possible }
    }
}

impl Tally {
    /// Of the tick and the packets of bursts or serves.
    pub fn of_many() -> Tally {
        Tally { is_possible: is_possible_of_many, ..Tally::default() }
    }

    pub fn add(&mut self, call: &Call, told: Told) {
        let refused = Refusal::ALL.iter().position(|each| each.number() == told.refusal);
        let answer = match (refused, told.change) {
            (Some(refused), _) => REFUSALS + refused,
            (None, 0) => 0,
            (None, change) => OPENED + change as usize - 1,
        };
        self.cells[place(call)][answer] += 1;
    }

    pub fn calls(&self) -> usize {
        self.cells.iter().flatten().sum()
    }

    /// How often every answer must be met.
    pub fn least(&self) -> usize {
        self.calls().min(FULL_RUN) * 1_000 / FULL_RUN
    }

    /// How often every edge must be met, which is rarer than an answer.
    pub fn least_of_edges(&self) -> usize {
        (self.least() / 20).max(1)
    }

    /// Answers that were met too rarely, and those that the rules don't give.
    pub fn complaints(&self) -> Vec<String> {
        let mut complaints = Vec::new();
        for (call, cells) in self.cells.iter().enumerate() {
            for (answer, &times) in cells.iter().enumerate() {
                let name = || format!("{}: {} met {times} times", CALLS[call], name_of(answer));
                match (self.is_possible)(call, answer) {
                    true if times < self.least() => complaints.push(name()),
                    false if times > 0 => complaints.push(name()),
                    _ => {}
                }
            }
        }
        complaints
    }
}

fn place(call: &Call) -> usize {
    match call {
        Call::SetUp { .. } => 0,
        Call::SetWeight { .. } => 1,
        Call::Count { .. } => 2,
        Call::Tick { .. } => 3,
        Call::Inbound { .. } => 4,
        Call::Outbound { .. } => 5,
    }
}

/// The answer at that place.
fn answered(place: usize) -> Answered {
    match place {
        0 => Answered::Accepted,
        REFUSALS..OPENED => Answered::Refused(Refusal::ALL[place - REFUSALS]),
        _ => Answered::Changed(place - OPENED),
    }
}

/// Whether the rules give that call that answer.
fn is_possible(call: usize, place: usize) -> bool {
    let packets = call >= 4;
    match answered(place) {
        Answered::Accepted => !packets,
        Answered::Refused(refusal) => refuses(call, refusal),
        // "Outbound packets open nothing."
        Answered::Changed(change) => packets && (call == 4 || CHANGES[change] != "opened"),
    }
}

/// Packets come behind an accepted tick: never 15 or 11.
fn is_possible_of_many(call: usize, place: usize) -> bool {
    match answered(place) {
        _ if call < 3 => false,
        Answered::Refused(Refusal::Unsound | Refusal::EarlierClock) => call == 3,
        _ => is_possible(call, place),
    }
}

/// "Order: setup 1, 2, 3, 4. Weight and count 15, 5. Tick 15, 11. Packets 15, 6, 20, 7 to 11, then 12 to 14."
fn refuses(call: usize, refusal: Refusal) -> bool {
    use Refusal::*;
    match call {
        0 => matches!(refusal, Sizes | Service | ServerUnset | ServerRepeated),
        1 | 2 => matches!(refusal, Unsound | NoServer),
        3 => matches!(refusal, Unsound | EarlierClock),
        4 => refusal.is_of_packets(),
        // those of an opening
        _ => refusal.is_of_packets() && !matches!(refusal, TableFull | NoWeight),
    }
}

fn name_of(place: usize) -> String {
    match answered(place) {
        Answered::Accepted => "accepted".into(),
        Answered::Refused(refusal) => format!("refusal {}", refusal.number()),
        Answered::Changed(change) => CHANGES[change].into(),
    }
}

impl Tally {
    /// Whether it is possible, or was met though it isn't.
    fn is_told(&self, call: usize, answer: usize) -> bool {
        (self.is_possible)(call, answer) || self.cells[call][answer] > 0
    }

    /// The calls that have any answer here.
    fn calls_told(&self) -> impl Iterator<Item = usize> + '_ {
        let has_answer =
            |&call: &usize| (0..ANSWERS).any(|answer| (self.is_possible)(call, answer));
        (0..CALLS.len()).filter(has_answer)
    }
}

impl fmt::Display for Tally {
    fn fmt(&self, out: &mut fmt::Formatter<'_>) -> fmt::Result {
        write!(out, "{:12}", "answer")?;
        for call in self.calls_told() {
            write!(out, "{:>10}", CALLS[call])?;
        }
        writeln!(out, "{:>10}", "all")?;
        for answer in 0..ANSWERS {
            if !self.calls_told().any(|call| self.is_told(call, answer)) {
                continue;
            }
            write!(out, "{:12}", name_of(answer))?;
            let mut all = 0;
            for call in self.calls_told() {
                let times = self.cells[call][answer];
                all += times;
                match self.is_told(call, answer) {
                    true => write!(out, "{times:>10}")?,
                    false => write!(out, "{:>10}", "-")?,
                }
            }
            writeln!(out, "{all:>10}")?;
        }
        Ok(())
    }
}
