//! The drill of the operator: sessions are ended by command, a server is drained with a wait for its zero, an outside health check says a
//! server down, and a director's table is lost.
//!
//! Whoever is cut has to learn it at once. The director doesn't know the ends' sequence numbers, so it asks for them, and answers what
//! belongs to no connection with a reset that fits.

mod health;

use super::service::{counts, Service};
use crate::books::observation::Observation;
use crate::lab::director::Options;
use crate::lab::network::{self, live_sockets};
use crate::lab::{ensure, wait_for, Failure, Lab, REPLICAS};
use crate::load::payments::Client;
use crate::timeline::Timeline;
use programs::SYSCTL;
use std::time::{Duration, Instant};

/// Sessions on each replica.
const EACH: usize = 3;
/// Where a session is disconnected, which replica is flushed, and which is drained.
const FIRST: usize = 0;
const FLUSHED: usize = 1;
const DRAINED: usize = 2;
/// How long a client and a replica may take to learn that a session was cut.
const AT_ONCE: Duration = Duration::from_secs(1);
/// How long a wait for zero may take, and what waits for a keep-alive.
const PATIENCE: Duration = Duration::from_secs(20);
/// A statement that takes longer than anything here; the server looks after its client meanwhile, which it doesn't by default.
const LOOK_AFTER: &str = "set client_connection_check_interval = 100";
const LONG: &str = "select pg_sleep(60)";
/// Soon enough for the drill: a server that says nothing doesn't hear that its session was lost.
const KEEP_ALIVE: [&str; 2] = ["net.ipv4.tcp_keepalive_time=2", "net.ipv4.tcp_keepalive_intvl=1"];
/// Fewer packets than leave the director in any run.
const LEAST_PACKETS: usize = 300;

/// Runs the drill.
pub fn run(lab: &Lab, timeline: &Timeline) -> Result<(), Failure> {
    timeline.title("An operator ends sessions, a server is down, and a table is lost");
    // the clock is the machine's, and goes on when the director's process is killed; so does the device
    let options = Options { device_stays: true, ..Options::default() };
    let mut service = Service::observe(lab, timeline, &options)?;
    for server in 0..REPLICAS {
        lab.output(&network::server(server), SYSCTL, &[&["-q", "-w"], &KEEP_ALIVE[..]].concat())?;
    }
    service.open_on_each(EACH)?;
    service
        .clients
        .iter_mut()
        .try_for_each(|client| client.commit().and_then(|()| client.begin()))?;
    timeline.tell("each commits it, and begins another");
    let mut drill = Drill { lab, timeline, service, ended: 0 };
    drill.disconnect()?;
    drill.flush()?;
    drill.drain_and_wait()?;
    drill.check_health(FLUSHED, DRAINED)?;
    drill.lose_table()?;
    drill.close()
}

struct Drill<'a> {
    lab: &'a Lab,
    timeline: &'a Timeline,
    service: Service<'a, Observation>,
    /// Connections that were ended by command.
    ended: usize,
}

impl Drill<'_> {
    fn tell(&self, words: impl AsRef<str>) {
        self.timeline.tell(words);
    }

    /// A session in the midst of a statement is disconnected.
    fn disconnect(&mut self) -> Result<(), Failure> {
        // the oldest is on the first replica
        let mut client = self.service.clients.remove(0);
        client.session.ask(LOOK_AFTER)?;
        let (address, port) = (client.address(), client.session.port);
        let statement = std::thread::spawn(move || (client.session.ask(LONG), client));
        std::thread::sleep(AT_ONCE / 4);
        let begin = Instant::now();
        self.service.director.disconnect(&address)?;
        let (result, client) =
            statement.join().map_err(|_| Failure("a session's thread broke off".into()))?;
        let took = begin.elapsed();
        let told = result.err().map_or("nothing".into(), |failure| failure.0);
        ensure(
            took < AT_ONCE && told.contains("closed the connection"),
            format!("after {took:?} the client was told {told}"),
        )?;
        self.tell(format!(
            "a session that waits for an answer is disconnected: psql has its error after {} ms",
            took.as_millis()
        ));
        let took = self.await_no_session(FIRST, Some(port), AT_ONCE)?;
        let counts = counts(&self.service.look()?);
        self.tell(format!(
            "replica {FIRST} has no socket and no backend of it, {} ms later; {counts}",
            took.as_millis()
        ));
        self.service.lose(client);
        self.count_ended(1)
    }

    /// Waits until no socket of the client's is left at a replica, or none of that port, and no backend of any but open sessions. Gives
    /// how long that took.
    fn await_no_session(
        &self,
        server: usize,
        port: Option<u16>,
        within: Duration,
    ) -> Result<Duration, Failure> {
        let begin = Instant::now();
        let clients = self.service.clients.iter();
        let others = clients.filter(|client| client.session.server == server).count();
        wait_for("the replica has learned it", within, || {
            let sockets = live_sockets(self.lab, &network::server(server), port)?;
            let backends = self.service.replicas[server].sessions()?;
            Ok((sockets == 0 && backends as usize == others).then_some(()))
        })?;
        Ok(begin.elapsed())
    }

    /// So many more were ended by command: the metrics must tell all.
    fn count_ended(&mut self, more: usize) -> Result<(), Failure> {
        self.ended += more;
        let told = self.service.director.endings("operator")?;
        ensure(
            told == self.ended,
            format!("the metrics tell {told} endings by the operator, not {}", self.ended),
        )
    }

    /// The next statement of each of these sessions must fail at once. Gives the longest time.
    fn must_learn(&mut self, clients: Vec<Client>) -> Result<Duration, Failure> {
        let mut longest = Duration::ZERO;
        for mut client in clients {
            let (took, told) = client.must_fail()?;
            ensure(took < AT_ONCE, format!("a client waited {took:?}: {told}"))?;
            longest = longest.max(took);
            self.service.lose(client);
        }
        Ok(longest)
    }

    /// All sessions of a replica are ended at once; the others go on.
    fn flush(&mut self) -> Result<(), Failure> {
        let clients = self.service.take_clients_of(FLUSHED);
        let sessions = clients.len();
        self.service.director.flush(FLUSHED)?;
        let row = self.service.look()?.rows.swap_remove(FLUSHED);
        ensure(row.connections == 0, format!("after the flush: {row:?}"))?;
        let took = self.await_no_session(FLUSHED, None, AT_ONCE)?;
        let longest = self.must_learn(clients)?;
        let payments = self.service.check_payments(FLUSHED)?;
        self.tell(format!(
            "replica {FLUSHED} is flushed: no socket and no backend after {} ms; the next statement of its {sessions} sessions fails \
             within {} ms; it has the {payments} payments that they had committed, and not the open ones",
            took.as_millis(),
            longest.as_millis() + 1
        ));
        self.service.work()?;
        self.count_ended(sessions)
    }

    /// A command waits for the zero of a drained replica, whose sessions end one after another.
    fn drain_and_wait(&mut self) -> Result<(), Failure> {
        let said = self.lab.run.join("wait.log");
        let mut waiting =
            self.service.director.begin(&["drain", &DRAINED.to_string(), "--wait", "60"], &said)?;
        let clients = self.service.take_clients_of(DRAINED);
        let sessions = clients.len();
        for client in clients {
            self.service.work()?;
            ensure(waiting.is_alive()?, "the wait ended before the replica had no connections")?;
            self.service.director.disconnect(&client.address())?;
            self.must_learn(vec![client])?;
        }
        let status = waiting.wait(PATIENCE)?;
        let told = std::fs::read_to_string(&said)?;
        let last = told.lines().last().unwrap_or_default();
        ensure(
            status.success() && last.ends_with("no connections left"),
            format!("the wait ended with {status}: {told}"),
        )?;
        self.tell(format!("drain {DRAINED} --wait has run beside, and ends when its {sessions} sessions have; its last line: {last}"));
        self.count_ended(sessions)
    }

    /// The director's process is killed, and another begins with an empty table.
    fn lose_table(&mut self) -> Result<(), Failure> {
        let clients = std::mem::take(&mut self.service.clients);
        let sessions = clients.len();
        self.service.book.lose_table(&self.service.director)?;
        let status = self.service.look()?;
        ensure(
            status.used == 0,
            format!("after the director was killed {} slots are used", status.used),
        )?;
        self.tell(format!("the director is killed, and another begins, which knows none of {sessions} sessions: {}", counts(&status)));
        let longest = self.must_learn(clients)?;
        self.tell(format!("their next statement fails after {} ms at most", longest.as_millis()));
        let took: Result<Vec<Duration>, Failure> =
            (0..REPLICAS).map(|server| self.await_no_session(server, None, PATIENCE)).collect();
        self.tell(format!(
            "the replicas learn it by their keep-alives, which are answered with resets too: no backend is left {:.1} s later",
            took?.iter().sum::<Duration>().as_secs_f64()
        ));
        (0..REPLICAS).try_for_each(|_| self.service.open().map(|_| ()))?;
        self.service.work()?;
        self.tell(format!("{REPLICAS} new sessions: {}", counts(&self.service.director.status()?)));
        Ok(())
    }

    /// Ends all sessions, and flushes what still counts of them. The packets must tell as many endings by command as the metrics.
    fn close(mut self) -> Result<(), Failure> {
        let clients = std::mem::take(&mut self.service.clients);
        clients.into_iter().try_for_each(|client| self.service.end(client))?;
        (0..REPLICAS).try_for_each(|server| self.service.director.flush(server).map(|_| ()))?;
        let status = self.service.look()?;
        ensure(status.used == 0, format!("after the flush: {}", counts(&status)))?;
        let ended = self.ended + self.service.director.endings("operator")?;
        let payments = self.service.check_all_payments()?;
        let timeline = self.timeline;
        let verdict = self.service.judge(LEAST_PACKETS)?;
        let by_packets = verdict.book.ended_by_director().len();
        ensure(
            by_packets == ended,
            format!("by the packets {by_packets} were ended, by the metrics {ended}"),
        )?;
        timeline.tell(format!(
            "{ended} connections were ended by command, by the packets as by the metrics; {} packets of unknown connections were \
             answered with a reset; {payments} payments, none lost",
            verdict.book.answered()
        ));
        Ok(())
    }
}
