//! Which answers a run has met.

use reference::{refusal, Answer, Change};
use std::collections::BTreeMap;

#[derive(Default, Debug)]
pub struct Tally {
    /// By the refusal's number.
    pub refused: BTreeMap<u8, usize>,
    pub opened: usize,
    pub kept: usize,
    pub ended: usize,
    pub numbers: usize,
    pub done: usize,
}

impl Tally {
    pub fn add(&mut self, answer: Answer) {
        match answer {
            Answer::Done => self.done += 1,
            Answer::Number(_) => self.numbers += 1,
            Answer::Passed(_, Change::Opened) => self.opened += 1,
            Answer::Passed(_, Change::Kept) => self.kept += 1,
            Answer::Passed(_, Change::Ended) => self.ended += 1,
            Answer::Refused(number) => *self.refused.entry(number).or_default() += 1,
        }
    }

    pub fn join(&mut self, other: &Tally) {
        for (&number, times) in &other.refused {
            *self.refused.entry(number).or_default() += times;
        }
        self.opened += other.opened;
        self.kept += other.kept;
        self.ended += other.ended;
        self.numbers += other.numbers;
        self.done += other.done;
    }

    pub fn calls(&self) -> usize {
        let refused: usize = self.refused.values().sum();
        refused + self.opened + self.kept + self.ended + self.numbers + self.done
    }

    /// Every answer but 15 is met often enough to mean something.
    pub fn assert_all_seen(&self) {
        for number in refusal::ALL {
            let times = self.refused.get(&number).copied().unwrap_or(0);
            let right = if number == refusal::UNSOUND { times == 0 } else { times >= 50 };
            assert!(right, "refusal {number}: {self:?}");
        }
        let passed = [self.opened, self.kept, self.ended];
        assert!(passed.iter().all(|&times| times >= 2_000), "{self:?}");
    }
}
