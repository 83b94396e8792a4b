//! The count of the drained replica falls, as its sessions end, to zero.

use super::{Drill, DRAINED, EACH};
use crate::drills::service::{Kept, PATIENCE};
use crate::lab::status::Status;
use crate::lab::{ensure, wait_for, Failure};

impl Drill<'_> {
    /// What is left on the drained replica ends, one after another, to zero.
    pub fn end_old_sessions(&mut self, kept: Kept) -> Result<(), Failure> {
        let report = self.service.end_kept(kept)?;
        self.tell(format!(
            "the load with kept connections ends: {} transactions, no failure",
            report.transactions
        ));
        self.work_on()?;
        for left in (0..EACH).rev() {
            self.service.end_oldest_on(DRAINED)?;
            let count = self.service.look()?.rows[DRAINED].connections;
            self.tell(format!(
                "a session on replica {DRAINED} ends, {left} open; its count reads {count}"
            ));
            if left > 0 {
                self.work_on()?;
            }
        }
        let status = self.wait_until_exact()?;
        let (count, clock) = (status.rows[DRAINED].connections, status.clock);
        self.tell(format!("replica {DRAINED} reads {count} at clock {clock}: may be unplugged"));
        Ok(())
    }

    /// Work between two ends; a patient drill waits for the count to fall.
    fn work_on(&mut self) -> Result<(), Failure> {
        if self.pace.patient {
            let status = self.wait_until_exact()?;
            let count = status.rows[DRAINED].connections;
            self.tell(format!("replica {DRAINED} reads {count} at clock {}", status.clock));
        }
        self.service.work()
    }

    /// Works on and looks, until all finished connections of the drained replica must be struck. Each look holds the count
    /// against the book: a fall too early or too late fails.
    fn wait_until_exact(&mut self) -> Result<Status, Failure> {
        let open = self.service.clients.iter().filter(|client| client.session.server == DRAINED);
        let open = open.count() as u32;
        let service = &mut self.service;
        let mut seen = u32::MAX;
        wait_for("the fall of the count", PATIENCE, || {
            let status = service.look()?;
            let count = status.rows[DRAINED].connections;
            let words = format!("the count of replica {DRAINED} rose from {seen} to {count}");
            ensure(count <= seen, words)?;
            seen = count;
            if service.book.bounds(DRAINED, status.clock).possible == Some(open) {
                return Ok(Some(status));
            }
            service.work()?;
            Ok(None)
        })
    }

    /// At zero: no connection has come to the drained replica since its drain.
    pub fn check_unvisited(&mut self, before: &[usize]) -> Result<(), Failure> {
        let elsewhere = self.service.check_free(DRAINED, before)?;
        self.tell(format!(
            "its log: no connection since the drain, while the others received {elsewhere}"
        ));
        Ok(())
    }
}
