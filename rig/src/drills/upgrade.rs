//! The drill of the upgrade: new processes of the director follow one another, under load and while a replica is drained.
//!
//! A take-over hands the open device on, and no packet is lost. In a restart nobody has the device open for a moment; the kernel
//! drops what comes to it then, and TCP sends it again. So clients and replicas can't tell which packet was a connection's last,
//! and the book is kept from the packets.

use super::service::{Kept, Service, PATIENCE};
use crate::books::observation::Observation;
use crate::lab::director::Options;
use crate::lab::replacement::Replacement::{self, Restart, TakeOver};
use crate::lab::{wait_for, Failure, Lab, REPLICAS};
use crate::load::at_work::at_work;
use crate::load::payments::Client;
use crate::load::pgbench::{Load, Plan};
use crate::timeline::Timeline;
use std::time::{Duration, Instant};

/// The replica that is drained.
const DRAINED: usize = 1;
/// Sessions on each replica: one keeps its transaction open through all, the others pay.
const EACH: usize = 2;
/// Fewer packets than leave the director in any run.
const LEAST_PACKETS: usize = 5000;

const KEPT: Plan = Plan { name: "kept", clients: REPLICAS, reconnect: false, rate: 100 };
const CROWD: Plan = Plan { name: "crowd", clients: 2, reconnect: true, rate: 40 };

/// How the drill takes its time. The steps take longer than the 120 s of the director's clock for which a finished connection
/// counts: so some end before a process is replaced, and are taken off after it.
#[derive(Clone, Copy, Debug)]
pub struct Pace {
    /// How many times as fast as real time the director's clock runs.
    pub clock_speed: u32,
    /// How long all work before the director's process is replaced, and after it.
    pub around: Duration,
    /// How it is replaced, again and again.
    pub steps: &'static [Replacement],
}

impl Pace {
    /// For the test command.
    pub const SHORT: Pace = Pace {
        clock_speed: 30,
        around: Duration::from_millis(600),
        steps: &[TakeOver, TakeOver, Restart, TakeOver],
    };
    /// For a person who follows it.
    pub const FULL: Pace = Pace {
        clock_speed: 8,
        around: Duration::from_secs(1),
        steps: &[
            TakeOver, TakeOver, TakeOver, TakeOver, Restart, TakeOver, TakeOver, TakeOver, Restart,
            TakeOver, TakeOver, TakeOver, Restart,
        ],
    };
}

/// Runs the drill.
pub fn run(lab: &Lab, timeline: &Timeline, pace: Pace) -> Result<(), Failure> {
    timeline.title("The director is upgraded and restarted under load, while a replica is drained");
    let options = Options { device_stays: true, ..Options::at_speed(pace.clock_speed) };
    let service = Service::observe(lab, timeline, &options)?;
    let (before, received, longest) = (Vec::new(), 0, Vec::new());
    let mut drill = Drill { timeline, service, pace, before, received, longest };
    drill.open_sessions()?;
    let mut kept = drill.service.start_kept(KEPT, DRAINED)?;
    drill.drain()?;
    let mut crowd = drill.service.start_crowd(CROWD, DRAINED)?;
    let undisturbed = drill.go_on()?;
    for &how in pace.steps {
        drill.replace(how)?;
        kept.check()?;
        crowd.check()?;
    }
    drill.tell_longest(undisturbed);
    drill.commit()?;
    drill.end_loads(kept, crowd)?;
    drill.empty()?;
    drill.close()
}

struct Drill<'a> {
    timeline: &'a Timeline,
    service: Service<'a, Observation>,
    pace: Pace,
    /// How many connections each replica had had at the drain, by its log.
    before: Vec<usize>,
    /// How many connections came after the drain, so far.
    received: usize,
    /// The longest time that a session waited for an answer, at each replacement.
    longest: Vec<(Replacement, Duration)>,
}

impl Drill<'_> {
    fn tell(&self, words: impl AsRef<str>) {
        self.timeline.tell(words);
    }

    fn open_sessions(&mut self) -> Result<(), Failure> {
        self.service.open_on_each(EACH)?;
        // The first ones are one to a replica.
        self.service.clients[REPLICAS..].iter_mut().try_for_each(Client::commit)?;
        self.tell(format!(
            "{REPLICAS} of them, one to a replica, keep it open; the others commit, and pay on"
        ));
        Ok(())
    }

    fn drain(&mut self) -> Result<(), Failure> {
        self.before = self.service.connections()?;
        let row = self.service.drain(DRAINED)?;
        let connections = row.connections;
        self.tell(format!("replica {DRAINED} is drained: weight 0, {connections} connections"));
        Ok(())
    }

    /// All work for a while. Gives the longest time that a session waits for an answer where nothing happens.
    fn go_on(&mut self) -> Result<Duration, Failure> {
        let ((), longest) = at_work(&mut self.service.clients, self.pace.around, || Ok(()))?;
        Ok(longest)
    }

    /// A new process follows the director's while all work. The drained replica stays drained.
    fn replace(&mut self, how: Replacement) -> Result<(), Failure> {
        let Service { clients, book, director, .. } = &mut self.service;
        let ((replaced, took), longest) = at_work(clients, self.pace.around, || {
            let begin = Instant::now();
            Ok((book.replace(director, how)?, begin.elapsed()))
        })?;
        self.longest.push((how, longest));
        let row = self.service.check_draining(DRAINED)?;
        let fresh = self.wait_for_connection()?;
        let number = self.longest.iter().filter(|(other, _)| *other == how).count();
        self.tell(format!(
            "{how} {number}, in {} ms: {} connections at clock {}; an answer took up to {} ms; {fresh} new connections, none on \
             replica {DRAINED}, which has {}",
            took.as_millis(),
            replaced.connections,
            replaced.reading.clock,
            longest.as_millis(),
            row.connections
        ));
        Ok(())
    }

    /// A new connection comes, and none to the drained replica. Gives how many have come since this was last asked.
    fn wait_for_connection(&mut self) -> Result<usize, Failure> {
        let known = self.service.check_unvisited(DRAINED, &self.before)?;
        let received = wait_for("a new connection", PATIENCE, || {
            let received = self.service.check_unvisited(DRAINED, &self.before)?;
            Ok((received > known).then_some(received))
        })?;
        Ok(received - std::mem::replace(&mut self.received, received))
    }

    fn tell_longest(&self, undisturbed: Duration) {
        let longest = |how: Replacement| {
            let times = self.longest.iter().filter(|(other, _)| *other == how);
            times.map(|(_, time)| time.as_millis()).max().unwrap_or_default()
        };
        self.tell(format!(
            "the longest that a session waited for an answer: {} ms where nothing happened, {} ms at a take-over, {} ms at a restart",
            undisturbed.as_millis(),
            longest(TakeOver),
            longest(Restart)
        ));
    }

    /// The transactions that were open all the time are committed, and each replica has all its rows.
    fn commit(&mut self) -> Result<(), Failure> {
        let clients = self.service.clients.iter_mut();
        let mut open: Vec<_> = clients.filter(|client| client.is_in_transaction()).collect();
        open.iter_mut().try_for_each(|client| client.commit())?;
        let transactions = open.len();
        self.tell(format!(
            "{transactions} transactions were open through all of it; they commit, and find their rows, each on its replica"
        ));
        self.service.work()
    }

    fn end_loads(&mut self, kept: Kept, crowd: Load) -> Result<(), Failure> {
        let kept = self.service.end_kept(kept)?;
        let crowd = self.service.end_crowd(crowd)?;
        self.tell(format!(
            "pgbench: {} transactions on kept connections, {} with a connection each, none failed",
            kept.transactions, crowd.transactions
        ));
        Ok(())
    }

    /// The sessions on the drained replica end, and its count falls to zero.
    fn empty(&mut self) -> Result<(), Failure> {
        for client in self.service.take_clients_of(DRAINED) {
            self.service.end(client)?;
        }
        let what = "the drained replica reads zero";
        let status =
            self.service.wait_until(what, |status| status.rows[DRAINED].connections == 0)?;
        let elsewhere = self.service.check_free(DRAINED, &self.before)?;
        self.tell(format!(
            "the sessions on replica {DRAINED} have ended; it reads 0 at clock {}, and may be unplugged",
            status.clock
        ));
        self.tell(format!(
            "its log: no connection since the drain, while the others received {elsewhere}"
        ));
        Ok(())
    }

    /// Ends all sessions, and holds what the director says against the logs and the packets.
    fn close(mut self) -> Result<(), Failure> {
        let payments = self.service.check_all_payments()?;
        let clock = self.service.end_all()?;
        self.tell(format!("every replica reads 0 at clock {clock}"));
        let openings = self.service.check_openings()?;
        let (timeline, statements) = (self.timeline, self.service.statements);
        let verdict = self.service.judge(LEAST_PACKETS)?;
        verdict.tell_replaced(timeline)?;
        timeline.tell(openings);
        timeline.tell(format!(
            "{statements} statements, each answered by the replica of its session; {payments} payments, none lost"
        ));
        verdict.tell_zero(DRAINED, timeline)
    }
}
