//! The drained replica is unplugged and put back, and the drill ends.

use super::{Drill, DRAINED};
use crate::lab::status::Standing;
use crate::lab::{ensure, Failure};
use crate::load::pgbench::Load;

/// Fewer packets than any run of it has.
const LEAST_PACKETS: usize = 1_000;

impl Drill<'_> {
    /// The drained replica is stopped, and nobody notices.
    pub fn unplug(&mut self, mut crowd: Load) -> Result<Load, Failure> {
        self.service.replicas[DRAINED].stop()?;
        self.tell(format!("PostgreSQL on replica {DRAINED} is stopped"));
        self.work()?;
        crowd.check()?;
        let sessions = self.service.clients.len();
        self.tell(format!("nobody notices: {sessions} sessions and pgbench go on"));
        self.service.replicas[DRAINED].start_again()?;
        self.tell(format!("PostgreSQL on replica {DRAINED} runs again"));
        Ok(crowd)
    }

    pub fn put_back(&mut self, crowd: Load) -> Result<(), Failure> {
        self.service.work()?;
        let report = self.service.end_crowd(crowd)?;
        self.tell(format!(
            "the load with new connections ends: {} transactions, each on a connection of its own, no failure",
            report.transactions
        ));
        self.service.director.set_weight(DRAINED, 1)?;
        let standing = self.service.look()?.rows[DRAINED].standing;
        ensure(standing == Standing::InService, format!("replica {DRAINED} is not in service"))?;
        let server = self.service.open()?;
        let words =
            format!("the next session is on replica {server} and not on {DRAINED}, which has none");
        ensure(server == DRAINED, words)?;
        self.service.work()?;
        self.tell(format!("replica {DRAINED} has weight 1 again, and the next session is on it"));
        Ok(())
    }

    /// All sessions end, every count falls to zero in its time, and all that left the director is verified.
    pub fn close(mut self) -> Result<(), Failure> {
        let payments = self.service.check_all_payments()?;
        let clock = self.service.end_all()?;
        self.tell(format!("every replica reads 0 at clock {clock}, none too early or too late"));
        let openings = self.service.check_openings()?;
        let (timeline, statements) = (self.timeline, self.service.statements);
        self.service.finish(LEAST_PACKETS)?;
        timeline.tell(openings);
        timeline.tell(format!(
            "{statements} statements, each answered by the replica of its session; {payments} payments, none lost"
        ));
        Ok(())
    }
}
