//! Looks at the director's table, taken all the time, and what they tell of its clock.

use crate::lab::director::Director;
use crate::lab::status::Status;
use crate::lab::{ensure, Failure};
use std::sync::mpsc::{channel, RecvTimeoutError, Sender};
use std::sync::Arc;
use std::thread::JoinHandle;
use std::time::{Duration, SystemTime, UNIX_EPOCH};

/// Between two looks.
const PAUSE: Duration = Duration::from_millis(10);

/// The second that the director's clock showed somewhere between two times, in seconds since 1970.
#[derive(Clone, Copy, Debug)]
pub struct Reading {
    /// No earlier.
    pub before: f64,
    /// No later.
    pub after: f64,
    /// The second.
    pub clock: u32,
}

/// A look at the director's table, with times in seconds since 1970.
#[derive(Clone, Debug)]
pub struct Look {
    /// The time before it was asked.
    pub before: f64,
    /// The time when it had answered.
    pub after: f64,
    /// What it said.
    pub status: Status,
}

impl Look {
    /// Looks now.
    pub fn take(director: &Director) -> Result<Look, Failure> {
        let before = now();
        let status = director.status()?;
        Ok(Look { before, after: now(), status })
    }

    /// What it says of the director's clock.
    pub fn reading(&self) -> Reading {
        Reading { before: self.before, after: self.after, clock: self.status.clock }
    }
}

/// The time, in seconds since 1970.
pub fn now() -> f64 {
    let since = SystemTime::now().duration_since(UNIX_EPOCH);
    since.expect("the clock stands after 1970").as_secs_f64()
}

/// Looks again and again, beside what else is done, until it is told to end.
pub struct Watcher {
    ending: Sender<()>,
    looks: JoinHandle<Result<Vec<Look>, Failure>>,
}

impl Watcher {
    /// Begins to look.
    pub fn start(director: Arc<Director>) -> Watcher {
        let (ending, ended) = channel();
        let looks = std::thread::spawn(move || {
            let mut looks = Vec::new();
            while let Err(RecvTimeoutError::Timeout) = ended.recv_timeout(PAUSE) {
                looks.push(Look::take(&director)?);
            }
            Ok(looks)
        });
        Watcher { ending, looks }
    }

    /// Ends it, and gives its looks.
    pub fn finish(self) -> Result<Vec<Look>, Failure> {
        drop(self.ending);
        self.looks.join().map_err(|_| Failure("the thread that looks broke off".into()))?
    }
}

/// The director's clock: how fast it runs, and what the looks say of it.
#[derive(Clone, Debug)]
pub struct Clock {
    speed: f64,
    /// It showed 0 at this time or later.
    zero: f64,
    /// By each of these times it had shown this second.
    shown: Vec<(f64, i64)>,
}

impl Clock {
    /// The clock of that speed that fits all looks. Fails where there is none: it then runs at another speed.
    pub fn that_fits(looks: &[Look], speed: u32) -> Result<Clock, Failure> {
        let speed = f64::from(speed);
        let second = |look: &Look| f64::from(look.status.clock);
        let earliest = looks.iter().map(|look| look.before - (second(look) + 1.0) / speed);
        let latest = looks.iter().map(|look| look.after - second(look) / speed);
        let zero = earliest.fold(f64::NEG_INFINITY, f64::max);
        let words = format!("the director's clock doesn't run {speed} times as fast as time");
        ensure(zero <= latest.fold(f64::INFINITY, f64::min), words)?;
        let shown = looks.iter().map(|look| (look.after, i64::from(look.status.clock)));
        let mut shown: Vec<(f64, i64)> = shown.collect();
        shown.sort_by(|a, b| a.0.total_cmp(&b.0));
        let mut greatest = 0;
        for (_, second) in &mut shown {
            greatest = greatest.max(*second);
            *second = greatest;
        }
        Ok(Clock { speed, zero, shown })
    }

    /// The least and the greatest second at which the director can have taken a packet that it was handed and wrote at these
    /// times. It reads its clock before it reads packets, so the second may be that of a moment before the packet came, but not
    /// less than one that was seen then.
    pub fn seconds(&self, handed: f64, written: f64) -> (i64, i64) {
        let seen = self.shown.partition_point(|(time, _)| *time <= handed);
        let least = if seen == 0 { 0 } else { self.shown[seen - 1].1 };
        (least, ((written - self.zero) * self.speed).floor() as i64)
    }
}

#[cfg(test)]
mod tests {
    use super::*;

    fn look(time: f64, clock: u32) -> Look {
        let status = Status { used: 0, slots: 1, clock, rows: Vec::new() };
        Look { before: time, after: time + 0.1, status }
    }

    #[test]
    fn the_speed_of_the_clock_is_checked() {
        let looks = [look(50.5, 0), look(60.5, 10), look(150.5, 100)];
        assert!(Clock::that_fits(&looks, 1).is_ok());
        assert!(Clock::that_fits(&looks, 2).is_err());
        assert!(Clock::that_fits(&[looks[0].clone(), look(60.5, 12)], 1).is_err());
    }

    #[test]
    fn a_packet_came_no_earlier_than_the_latest_look_before_it() {
        let looks = [look(60.5, 10), look(50.5, 0), look(60.55, 10)];
        let clock = Clock::that_fits(&looks, 1).unwrap();
        // Zero was at 49.55 or later.
        assert_eq!(clock.seconds(60.7, 61.6), (10, 12));
        assert_eq!(clock.seconds(60.5, 61.5), (0, 11));
        assert_eq!(clock.seconds(50.0, 50.2), (0, 0));
    }
}
