//! The book of the sessions: what each server's count must be, from what clients and replicas know.
//!
//! An open connection counts. One that both sides finished counts until the director's clock is 120 past its last packet, or
//! until its client's port comes back. The moment of that packet is known only as lying between two readings of the clock, so
//! in between a count may be one or the other; outside it is exact.

use crate::books::{Book, FINISHED};
use crate::lab::director::Director;
use crate::lab::status::Status;
use crate::lab::{ensure, Failure};

/// A connection that the book knows.
#[derive(Clone, Copy, Debug)]
struct Entry {
    server: usize,
    port: u16,
    ended: Option<Last>,
}

/// The director's clock before and after the last packet.
#[derive(Clone, Copy, Debug)]
struct Last {
    before: u32,
    after: u32,
}

/// Connections that come and go all the time and aren't known one by one. None is from the port of an entry: the client's kernel
/// keeps a closed port back for a minute, unless it is told otherwise.
#[derive(Clone, Debug)]
struct Crowd {
    servers: Vec<usize>,
    ended: Option<u32>,
}

/// What a count may be.
#[derive(Clone, Copy, Debug, PartialEq, Eq)]
pub struct Bounds {
    /// No less.
    pub sure: u32,
    /// No more; none where the connections aren't all known.
    pub possible: Option<u32>,
}

/// The book.
#[derive(Clone, Debug, Default)]
pub struct SessionBook {
    entries: Vec<Entry>,
    crowds: Vec<Crowd>,
}

impl Book for SessionBook {
    fn look(&mut self, director: &Director) -> Result<Status, Failure> {
        let status = director.status()?;
        self.check(&status)?;
        Ok(status)
    }

    fn opened(&mut self, server: usize, port: u16) {
        // No look came since its SYN: whether the finished one still counted then or not, it doesn't now.
        self.entries.retain(|entry| entry.port != port || entry.ended.is_none());
        self.entries.push(Entry { server, port, ended: None });
    }

    fn ended(&mut self, port: u16, before: u32, after: u32) {
        let open =
            self.entries.iter_mut().find(|entry| entry.port == port && entry.ended.is_none());
        open.expect("the connection was opened").ended = Some(Last { before, after });
    }

    fn crowd_came(&mut self, servers: Vec<usize>) {
        self.crowds.push(Crowd { servers, ended: None });
    }

    fn crowd_went(&mut self, after: u32) {
        self.crowds.iter_mut().for_each(|crowd| crowd.ended = crowd.ended.or(Some(after)));
    }

    fn close(&mut self) -> Result<(), Failure> {
        Ok(())
    }
}

impl SessionBook {
    /// What the server's count may be at that clock.
    pub fn bounds(&self, server: usize, clock: u32) -> Bounds {
        let count = |counts: fn(&Entry, u32) -> bool| {
            self.entries
                .iter()
                .filter(|entry| entry.server == server && counts(entry, clock))
                .count()
        };
        let crowded = self.crowds.iter().any(|crowd| {
            crowd.servers.contains(&server) && crowd.ended.is_none_or(|end| within(clock, end))
        });
        let possible =
            count(|entry, clock| entry.ended.is_none_or(|last| within(clock, last.after)));
        let sure = count(|entry, clock| entry.ended.is_none_or(|last| within(clock, last.before)));
        Bounds { sure: sure as u32, possible: (!crowded).then_some(possible as u32) }
    }

    /// Holds all counts of a status against the book.
    pub fn check(&self, status: &Status) -> Result<(), Failure> {
        for row in &status.rows {
            let (count, bounds) = (row.connections, self.bounds(row.number, status.clock));
            let told = format!("replica {} reads {count} at clock {}", row.number, status.clock);
            let sure = bounds.sure;
            ensure(count >= sure, format!("too early: {told}, but {sure} connections must count"))?;
            let possible = bounds.possible.unwrap_or(count);
            ensure(
                count <= possible,
                format!("too late: {told}, but no more than {possible} may count"),
            )?;
        }
        let sum: u32 = status.rows.iter().map(|row| row.connections).sum();
        ensure(sum == status.used, format!("{} slots are used by {sum} connections", status.used))
    }
}

/// Whether a finished connection whose last packet came at `last` still counts.
fn within(clock: u32, last: u32) -> bool {
    clock.saturating_sub(last) < FINISHED
}

#[cfg(test)]
mod tests {
    use super::*;

    fn status(clock: u32, counts: [u32; 2]) -> Status {
        Status::of_counts(clock, &counts)
    }

    fn bounds(sure: u32, possible: u32) -> Bounds {
        Bounds { sure, possible: Some(possible) }
    }

    #[test]
    fn a_finished_connection_counts_until_120_past_its_last_packet() {
        let mut book = SessionBook::default();
        book.opened(0, 40000);
        book.opened(0, 40001);
        book.opened(1, 40002);
        book.ended(40000, 100, 103);
        for (clock, want) in
            [(103, (2, 2)), (219, (2, 2)), (220, (1, 2)), (222, (1, 2)), (223, (1, 1))]
        {
            assert_eq!(book.bounds(0, clock), bounds(want.0, want.1), "{clock}");
            assert_eq!(book.bounds(1, clock), bounds(1, 1), "{clock}");
        }
    }

    #[test]
    fn early_and_late_counts_are_refused() {
        let mut book = SessionBook::default();
        book.opened(0, 40000);
        assert!(book.check(&status(50, [1, 0])).is_ok());
        assert!(book.check(&status(50, [0, 0])).is_err(), "an open session must count");
        book.ended(40000, 100, 100);
        assert!(book.check(&status(219, [1, 0])).is_ok());
        assert!(book.check(&status(219, [0, 0])).is_err(), "zero came early");
        assert!(book.check(&status(220, [0, 0])).is_ok());
        assert!(book.check(&status(220, [1, 0])).is_err(), "zero came late");
        assert!(book.check(&status(220, [0, 1])).is_err(), "a connection nobody opened");
    }

    #[test]
    fn a_crowd_hides_the_upper_bound_until_it_is_struck() {
        let mut book = SessionBook::default();
        book.opened(1, 40000);
        book.crowd_came(vec![1]);
        assert_eq!(book.bounds(1, 10), Bounds { sure: 1, possible: None });
        assert_eq!(book.bounds(0, 10), bounds(0, 0));
        assert!(book.check(&status(10, [0, 500])).is_ok());
        assert!(book.check(&status(10, [1, 500])).is_err());
        book.crowd_went(20);
        assert_eq!(book.bounds(1, 139), Bounds { sure: 1, possible: None });
        assert_eq!(book.bounds(1, 140), bounds(1, 1));
        assert!(book.check(&status(140, [0, 2])).is_err());
    }

    #[test]
    fn a_port_may_come_again() {
        let mut book = SessionBook::default();
        book.opened(0, 40000);
        book.ended(40000, 10, 10);
        book.opened(1, 40000);
        assert_eq!((book.bounds(0, 130), book.bounds(1, 130)), (bounds(0, 0), bounds(1, 1)));
        book.ended(40000, 200, 200);
        assert_eq!(book.bounds(1, 320), bounds(0, 0));
    }

    #[test]
    fn a_port_that_comes_back_takes_its_finished_connection_off_at_once_and_no_other() {
        let mut book = SessionBook::default();
        for (server, port) in [(0, 40000), (0, 40001), (0, 40002)] {
            book.opened(server, port);
        }
        book.ended(40000, 10, 12);
        book.ended(40001, 10, 12);
        assert!(book.check(&status(20, [3, 0])).is_ok());
        book.opened(1, 40000);
        assert!(book.check(&status(20, [2, 1])).is_ok());
        for wrong in [[3, 0], [3, 1], [1, 1], [2, 0]] {
            assert!(book.check(&status(20, wrong)).is_err(), "{wrong:?}");
        }
        assert!(book.check(&status(132, [1, 1])).is_ok(), "the new one is not finished");
    }

    #[test]
    fn used_slots_are_the_sum_of_the_counts() {
        let mut wrong = status(50, [0, 0]);
        wrong.used = 1;
        assert!(SessionBook::default().check(&wrong).is_err());
    }
}
