//! The drill of the flood: many SYNs from forged addresses fill the director's table, while sessions work.
//!
//! Each holds a slot until it has been opening for as long as the configuration allows; then the director ends it. So sessions that are
//! there go on, new ones are refused meanwhile, and served again within that time.

use super::service::{listed, Service};
use crate::books::observation::Observation;
use crate::lab::director::Options;
use crate::lab::{ensure, Failure, Lab, REPLICAS};
use crate::links::forged::{Forger, FORGED};
use crate::load::at_work::at_work;
use crate::load::payments::Client;
use crate::timeline::Timeline;
use std::time::{Duration, Instant};

/// Sessions on each replica before the flood.
const EACH: usize = 2;
/// New sessions after it.
const NEWCOMERS: usize = 3;
/// For how many seconds of the director's clock a connection may be opening.
const OPENING: u32 = 30;
/// The addresses that the SYNs are from.
const ADDRESSES: u32 = 5_000;
/// How long the sessions work before the flood and after it.
const AROUND: Duration = Duration::from_millis(500);
/// Fewer packets than leave the director in any run.
const LEAST_PACKETS: usize = 5_000;
/// An opening that finds no slot free.
const FULL: u32 = 13;

/// How the drill takes its time.
#[derive(Clone, Copy, Debug)]
pub struct Pace {
    /// How many times as fast as real time the director's clock runs.
    pub clock_speed: u32,
    /// SYNs from forged addresses.
    pub syns: u32,
}

impl Pace {
    /// For the test command.
    pub const SHORT: Pace = Pace { clock_speed: 20, syns: 12_000 };
    /// For a person who follows it.
    pub const FULL: Pace = Pace { clock_speed: 8, syns: 50_000 };
}

/// Runs the drill.
pub fn run(lab: &Lab, timeline: &Timeline, pace: Pace) -> Result<(), Failure> {
    timeline.title("A flood of SYNs from forged addresses, while sessions work");
    let settings = vec![format!("opening-timeout {OPENING}")];
    let options = Options { settings, ..Options::at_speed(pace.clock_speed) };
    let mut service = Service::observe(lab, timeline, &options)?;
    let forger = Forger::new(lab)?;
    timeline.tell(format!(
        "a connection may be opening for {OPENING} s of the clock, which take {} s",
        f64::from(OPENING) / f64::from(pace.clock_speed)
    ));
    service.open_on_each(EACH)?;
    service.clients[REPLICAS..].iter_mut().try_for_each(Client::commit)?;
    timeline.tell(format!(
        "{REPLICAS} of them, one to a replica, keep it open; the others commit, and pay on"
    ));
    let mut drill = Drill { timeline, service, clock_speed: pace.clock_speed };
    let over = drill.flood(&forger, pace.syns)?;
    drill.serve_again(over)?;
    drill.forget_the_forged()?;
    drill.close()
}

struct Drill<'a> {
    timeline: &'a Timeline,
    service: Service<'a, Observation>,
    clock_speed: u32,
}

impl Drill<'_> {
    fn tell(&self, words: impl AsRef<str>) {
        self.timeline.tell(words);
    }

    /// Payments that the sessions have committed.
    fn payments(&self) -> u32 {
        self.service.clients.iter().map(|client| client.committed).sum()
    }

    /// Floods the director while all sessions work. Gives the clock by when it was over.
    fn flood(&mut self, forger: &Forger, syns: u32) -> Result<u32, Failure> {
        let (before, begin) = (self.payments(), Instant::now());
        let director = self.service.director.clone();
        let ((over, took, used), longest) = at_work(&mut self.service.clients, AROUND, || {
            forger.flood(syns, ADDRESSES)?;
            let status = director.status()?;
            Ok((status.clock, begin.elapsed() - AROUND, status.used))
        })?;
        self.tell(format!(
            "{syns} SYNs from {ADDRESSES} addresses in {:.1} s: {used} slots are used, {} packets were refused with {FULL}",
            took.as_secs_f64(),
            self.service.director.refusals(FULL)?
        ));
        ensure(
            self.service.director.refusals(FULL)? > 0,
            "the table was never full: the run shows nothing",
        )?;
        self.tell(format!(
            "meanwhile {} sessions go on, each on its replica: {} payments, an answer took up to {} ms",
            self.service.clients.len(),
            self.payments() - before,
            longest.as_millis()
        ));
        Ok(over)
    }

    /// New sessions are served again before the last SYN of the flood has been there for too long.
    fn serve_again(&mut self, over: u32) -> Result<(), Failure> {
        let room = self.service.wait_until("the table has room", |status| {
            status.used + NEWCOMERS as u32 <= status.slots
        })?;
        let servers: Result<Vec<usize>, Failure> =
            (0..NEWCOMERS).map(|_| self.service.open()).collect();
        let servers = servers?;
        let words =
            format!("{} s of the clock after the last SYN the table has room", room.clock - over);
        // it ticks once a second, and a busy machine may take another one of real time
        ensure(room.clock <= over + OPENING + 2 + self.clock_speed, &words)?;
        self.tell(format!(
            "{words}, and {NEWCOMERS} new sessions are served, on replicas {}",
            listed(servers)
        ));
        self.service.work()
    }

    /// All forged connections go, each counted as ended for its time.
    fn forget_the_forged(&mut self) -> Result<(), Failure> {
        let sessions = self.service.clients.len();
        self.service.wait_until("nothing but sessions is left", |status| {
            status.used as usize == sessions
        })?;
        let forged = self.service.director.openings()? - sessions;
        let ended = self.service.director.endings("opening-timeout")?;
        ensure(
            forged == ended,
            format!("{forged} forged connections were opened, the metrics tell {ended} endings"),
        )?;
        self.tell(format!("of the flood {forged} were opened and ended, all by the opening timeout, by the metrics"));
        self.service.work()?;
        self.service.clients[..REPLICAS].iter_mut().try_for_each(Client::commit)?;
        self.tell(format!("{REPLICAS} transactions were open through all of it; they commit, and find their rows, each on its replica"));
        Ok(())
    }

    /// Ends all sessions, and looks at what the packets say.
    fn close(mut self) -> Result<(), Failure> {
        let clock = self.service.end_all()?;
        self.tell(format!("every replica reads 0 at clock {clock}"));
        let payments = self.service.check_all_payments()?;
        let ended = self.service.director.endings("opening-timeout")?;
        let (timeline, statements) = (self.timeline, self.service.statements);
        let verdict = self.service.judge(LEAST_PACKETS)?;
        let by_packets = verdict.book.check_openings_ended_after(OPENING, &verdict.clock)?;
        let strange =
            verdict.book.ended_by_director().into_iter().find(|client| !client.starts_with(FORGED));
        ensure(strange.is_none(), format!("the director ended a session of {strange:?}"))?;
        ensure(
            by_packets == ended,
            format!("by the packets {by_packets} were ended, by the metrics {ended}"),
        )?;
        timeline.tell(format!(
            "{by_packets} connections were ended by the director, each forged, for {OPENING} s of nothing but SYNs; {} packets of \
             connections that it no longer knew were answered with a reset",
            verdict.book.answered()
        ));
        timeline.tell(format!("{statements} statements, each answered by the replica of its session; {payments} payments, none lost"));
        Ok(())
    }
}
