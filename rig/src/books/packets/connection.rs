//! A connection in the book of the packets, and how long it counts.

use crate::books::looks::{Clock, Reading};
use crate::books::{FINISHED, IDLE};

/// When the director took a packet, or ended a connection by itself: no earlier than the one, no later than the other.
#[derive(Clone, Copy, Debug)]
pub struct Moment {
    /// In seconds since 1970, as all times here.
    pub handed: f64,
    /// No earlier than that.
    pub written: f64,
}

/// What removes a connection before its idle limit.
#[derive(Clone, Copy, Debug, PartialEq, Eq)]
pub enum Removal {
    Reset,
    /// Both sides had finished it, and its client's SYN came again.
    Renewal,
    /// The director has ended it by itself: an operator told it to, or it was opening for too long.
    Director,
    /// The director's process was killed, and its table with it.
    Loss,
}

/// A connection in the book.
#[derive(Clone, Debug)]
pub struct Connection {
    pub client: String,
    pub server: usize,
    pub opened: Moment,
    pub last: Moment,
    /// Whether nothing but opening SYNs has come from its client.
    pub is_opening: bool,
    pub client_finished: bool,
    pub server_finished: bool,
    pub removed: Option<(Removal, Moment)>,
}

impl Connection {
    pub fn new(client: &str, server: usize, opened: Moment) -> Connection {
        let (client_finished, server_finished, removed) = (false, false, None);
        Connection {
            client: client.into(),
            server,
            opened,
            last: opened,
            is_opening: true,
            client_finished,
            server_finished,
            removed,
        }
    }

    pub fn is_finished(&self) -> bool {
        self.client_finished && self.server_finished
    }

    pub fn was_removed_by(&self, removal: Removal) -> bool {
        self.removed.is_some_and(|(by, _)| by == removal)
    }

    pub fn limit(&self) -> i64 {
        i64::from(if self.is_finished() { FINISHED } else { IDLE })
    }

    pub fn told(&self, clock: &Clock) -> String {
        let (_, last) = clock.seconds(self.last.handed, self.last.written);
        let how = match self.removed {
            Some((Removal::Reset, _)) => "reset".into(),
            Some((Removal::Renewal, _)) => "renewed".into(),
            Some((Removal::Director, _)) => "ended by the director".into(),
            Some((Removal::Loss, _)) => "lost with the table".into(),
            None => format!("counts for {} s", self.limit()),
        };
        format!("{} seen last at clock {last}, {how}", self.client)
    }

    /// The least and the greatest number of seconds from its opening to its removal, by the director's clock.
    pub fn seconds_until_removed(&self, clock: &Clock) -> (i64, i64) {
        let removed = self.removed.map_or(self.last, |(_, moment)| moment);
        let (from, until) = clock.seconds(self.opened.handed, self.opened.written);
        let (first, last) = clock.seconds(removed.handed, removed.written);
        (first - until, last - from)
    }

    /// The least and the greatest number that it can add to a count that was read so.
    pub fn bounds(&self, reading: &Reading, clock: &Clock) -> (u32, u32) {
        let (first, last) = clock.seconds(self.last.handed, self.last.written);
        let limit = self.limit();
        let shown = i64::from(reading.clock);
        let opened = (self.opened.written <= reading.before, self.opened.handed <= reading.after);
        let heard = (shown < first + limit, shown < last + limit);
        let kept = self.removed.map_or((true, true), |(_, moment)| {
            (moment.handed > reading.after, moment.written >= reading.before)
        });
        (u32::from(opened.0 && heard.0 && kept.0), u32::from(opened.1 && heard.1 && kept.1))
    }
}
