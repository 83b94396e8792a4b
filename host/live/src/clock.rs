//! The clock that the library is given: whole seconds since the machine's start, the time that it was suspended included. So
//! it goes on in the next process, and idle limits go on being true.

use std::time::Duration;

const NANOSECONDS: u128 = 1_000_000_000;

/// A clock that is read off the time since the machine's start, `speed` times as fast.
#[derive(Clone, Copy, Debug, PartialEq, Eq)]
pub struct Clock {
    /// When it showed 0.
    pub zero: Duration,
    /// How many times as fast as time it runs.
    pub speed: u32,
}

impl Clock {
    /// The clock of that speed. A faster one than time begins now: else it could have come to its last second already.
    pub fn new(now: Duration, speed: u32) -> Clock {
        Clock { zero: if speed == 1 { Duration::ZERO } else { now }, speed }
    }

    /// The second shown. It never wraps: past the last number of 32 bits it stays there.
    pub fn second(&self, now: Duration) -> u32 {
        u32::try_from(self.nanoseconds(now) / NANOSECONDS).unwrap_or(u32::MAX)
    }

    /// How long until it shows another second.
    pub fn until_next(&self, now: Duration) -> Duration {
        let left = NANOSECONDS - self.nanoseconds(now) % NANOSECONDS;
        Duration::from_nanos(left.div_ceil(u128::from(self.speed)) as u64)
    }

    fn nanoseconds(&self, now: Duration) -> u128 {
        now.saturating_sub(self.zero).as_nanos() * u128::from(self.speed)
    }
}
