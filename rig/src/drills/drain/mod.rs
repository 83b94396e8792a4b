//! The drill of the mission: a replica is drained while sessions hold open transactions on it, unplugged at zero, and put back.

mod unplug;
mod zero;

use super::service::{counts, listed, Service};
use crate::books::sessions::SessionBook;
use crate::lab::director::Options;
use crate::lab::{network, Failure, Lab, REPLICAS};
use crate::load::pgbench::Plan;
use crate::timeline::Timeline;

/// The replica that is drained.
const DRAINED: usize = 0;
/// Sessions on each replica before the drain.
const EACH: usize = 2;

const KEPT: Plan = Plan { name: "kept", clients: REPLICAS, reconnect: false, rate: 150 };
const CROWD: Plan = Plan { name: "crowd", clients: 2, reconnect: true, rate: 60 };

/// How the drill takes its time. A session without a packet for 900 s of the director's clock would be struck: no speed may be
/// so high that a round of work takes that long.
#[derive(Clone, Copy, Debug)]
pub struct Pace {
    /// How many times as fast as real time the director's clock runs.
    pub clock_speed: u32,
    /// Rounds of work for all sessions at each step.
    pub rounds: u32,
    /// New sessions after the drain.
    pub newcomers: usize,
    /// Whether each session's count is awaited before the next one ends.
    pub patient: bool,
}

impl Pace {
    /// For the test command.
    pub const SHORT: Pace = Pace { clock_speed: 30, rounds: 30, newcomers: 4, patient: false };
    /// For a person who follows it.
    pub const FULL: Pace = Pace { clock_speed: 8, rounds: 100, newcomers: 6, patient: true };
}

/// Runs the drill.
pub fn run(lab: &Lab, timeline: &Timeline, pace: Pace) -> Result<(), Failure> {
    timeline.title("A replica is drained, unplugged at zero and put back");
    let options = Options::at_speed(pace.clock_speed);
    let service = Service::start(lab, timeline, &options, |_| SessionBook::default())?;
    network::send_once(lab, REPLICAS)?;
    let mut drill = Drill { service, timeline, pace };
    drill.service.open_on_each(EACH)?;
    let kept = drill.service.start_kept(KEPT, DRAINED)?;
    drill.drain()?;
    let before = drill.service.connections()?;
    let crowd = drill.service.start_crowd(CROWD, DRAINED)?;
    drill.go_on()?;
    drill.open_newcomers()?;
    drill.end_old_sessions(kept)?;
    drill.check_unvisited(&before)?;
    let crowd = drill.unplug(crowd)?;
    drill.put_back(crowd)?;
    drill.close()
}

struct Drill<'a> {
    service: Service<'a, SessionBook>,
    timeline: &'a Timeline,
    pace: Pace,
}

impl Drill<'_> {
    fn tell(&self, words: impl AsRef<str>) {
        self.timeline.tell(words);
    }

    /// Rounds of work for all sessions; after each, the counts are held against the book.
    fn work(&mut self) -> Result<(), Failure> {
        for _ in 0..self.pace.rounds {
            self.service.work()?;
            self.service.look()?;
        }
        Ok(())
    }

    fn drain(&mut self) -> Result<(), Failure> {
        let row = self.service.drain(DRAINED)?;
        self.tell(format!(
            "replica {DRAINED} is drained: weight 0, {} connections",
            row.connections
        ));
        Ok(())
    }

    /// The sessions go on in their open transactions, commit, and find their rows.
    fn go_on(&mut self) -> Result<(), Failure> {
        self.work()?;
        self.tell("every session goes on in its transaction, each on its replica");
        self.service.clients.iter_mut().try_for_each(|client| client.commit())?;
        self.tell(
            "all committed; the next query in each session finds its row, on the same replica",
        );
        self.work()?;
        let payments = self.service.check_all_payments()?;
        let counts = counts(&self.service.look()?);
        self.tell(format!("{payments} payments so far, none lost; {counts}"));
        Ok(())
    }

    fn open_newcomers(&mut self) -> Result<(), Failure> {
        let servers = self.service.open_newcomers(self.pace.newcomers, DRAINED)?;
        self.service.work()?;
        self.tell(format!("{} new sessions, on replicas {}", servers.len(), listed(&servers)));
        Ok(())
    }
}
