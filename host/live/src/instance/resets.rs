//! How many resets may be sent in a second for packets of unknown connections.

/// What was sent in the present second of the clock.
#[derive(Clone, Debug, Default)]
pub struct Resets {
    second: u32,
    sent: u32,
    /// Serves that ended early for a packet that may be answered.
    early: u32,
    /// Resets beyond the limit: the answers to what an operator's ending has asked both ends.
    expected: u32,
}

/// More than one flush can ask for.
const MOST_EXPECTED: u32 = 2 * 4_096;

impl Resets {
    /// So many more are expected, whatever the limit.
    pub fn expect(&mut self, more: u32) {
        self.expected = (self.expected + more).min(MOST_EXPECTED);
    }

    /// Whether a serve should end behind the next packet that may be answered. Each such end costs a look at the whole table, so
    /// there are no more of them in a second than resets, also where none of the packets can be answered.
    pub fn are_awaited(&mut self, limit: u32, clock: u32) -> bool {
        self.go_on(clock);
        self.early < limit && (self.sent < limit || self.expected > 0)
    }

    /// A serve has ended early.
    pub fn count_early_end(&mut self) {
        self.early += 1;
    }

    /// Whether another one may be sent now.
    pub fn may_send(&mut self, limit: u32, clock: u32) -> bool {
        self.go_on(clock);
        let is_left = self.sent < limit || self.expected > 0;
        match self.sent < limit {
            true => self.sent += 1,
            false => self.expected = self.expected.saturating_sub(1),
        }
        is_left
    }

    fn go_on(&mut self, clock: u32) {
        if self.second != clock {
            *self = Resets { second: clock, expected: self.expected, ..Resets::default() };
        }
    }
}
