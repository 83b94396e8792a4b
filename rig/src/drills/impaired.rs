//! The drill with bad links: packets are lost, duplicated and reordered on their way to the director and from it, and a replica
//! is drained all the same.
//!
//! How late a drained replica may read zero: 120 s of the director's clock after the last packet that the end of its last
//! session causes. That is not the FIN: a side whose FIN isn't acknowledged sends it again after 0.2 s, 0.4 s, 0.8 s and so on,
//! and each one, and each answer to it, is a packet of the connection. How many there are is chance, so the book is kept from
//! the packets.

use super::service::Service;
use crate::books::observation::Observation;
use crate::lab::director::Options;
use crate::lab::status::Standing;
use crate::lab::{ensure, Failure, Lab, REPLICAS};
use crate::links::impairment::{Impaired, Impairment, Plan as Links};
use crate::links::relay::Rates;
use crate::load::payments::Client;
use crate::load::pgbench::{Load, Plan};
use crate::load::session::Session;
use crate::timeline::Timeline;

/// The replica that is drained.
const DRAINED: usize = 1;
/// Sessions on each replica before the drain.
const EACH: usize = 2;
/// New sessions after the drain.
const NEWCOMERS: usize = 3;
/// Rounds of work for all sessions, before the drain and after it.
const ROUNDS: u32 = 8;
/// Rows of a long answer: many segments at once, so that some overtake others.
const ROWS: u32 = 4000;
/// Fewer packets than leave the director in any run.
const LEAST_PACKETS: usize = 5000;
/// The director's clock: fast, but a segment that is sent again three or four times still comes within the 120 s.
const CLOCK_SPEED: u32 = 20;

/// Two packets in a hundred are lost, as many are duplicated and as many held back, each time a packet passes the relay.
const RATES: Rates = Rates { loss: 20, duplicate: 20, reorder: 20 };
/// nftables drops one in a hundred on the link of this replica.
const DROPPING: (usize, u64) = (0, 10);

/// New connections all the time.
const CROWD: Plan = Plan { name: "crowd", clients: 2, reconnect: true, rate: 20 };

/// Runs the drill; the seed decides what becomes of which packet.
pub fn run(lab: &Lab, timeline: &Timeline, seed: u64) -> Result<(), Failure> {
    timeline.title("Packets are lost, duplicated and reordered on all links");
    let mut service = Service::observe(lab, timeline, &Options::at_speed(CLOCK_SPEED))?;
    let impairment =
        Impairment::start(lab, REPLICAS, Links { seed, rates: RATES, dropping: DROPPING })?;
    let Rates { loss, duplicate, reorder } = RATES;
    timeline.tell(format!(
        "of 1000 packets on any link {loss} are lost, {duplicate} duplicated, {reorder} held back (seed {seed}); nftables drops \
         {} more at replica {}",
        DROPPING.1, DROPPING.0
    ));
    service.open_on_each(EACH)?;
    let mut drill = Drill { timeline, service };
    drill.go_on()?;
    drill.drain()?;
    let mut crowd = Load::start(lab, CROWD)?;
    drill.open_newcomers()?;
    drill.service.clients[..EACH * REPLICAS].iter_mut().try_for_each(Client::commit)?;
    drill.go_on()?;
    drill.end_sessions_on_drained()?;
    drill.unplug(&mut crowd)?;
    let report = crowd.end()?;
    timeline.tell(format!(
        "pgbench: {} transactions with a connection each, none failed",
        report.transactions
    ));
    drill.close(impairment)
}

struct Drill<'a> {
    timeline: &'a Timeline,
    service: Service<'a, Observation>,
}

impl Drill<'_> {
    /// Every session goes on on its replica, and reads a long answer.
    fn go_on(&mut self) -> Result<(), Failure> {
        for _ in 0..ROUNDS {
            self.service.work()?;
            self.service.look()?;
        }
        let clients = &mut self.service.clients;
        clients.iter_mut().try_for_each(|client| read_long_answer(&mut client.session))?;
        self.timeline.tell(format!(
            "{ROUNDS} rounds of work in {} sessions, and an answer of {ROWS} rows in each: all right, from their own replica",
            clients.len()
        ));
        Ok(())
    }

    fn drain(&mut self) -> Result<(), Failure> {
        let row = self.service.drain(DRAINED)?;
        let words = format!("replica {DRAINED} has {} connections and not {EACH}", row.connections);
        ensure(row.connections as usize == EACH, words)?;
        self.timeline.tell(format!("replica {DRAINED} is drained; its {EACH} sessions stay"));
        Ok(())
    }

    fn open_newcomers(&mut self) -> Result<(), Failure> {
        self.service.open_newcomers(NEWCOMERS, DRAINED)?;
        let words = "new sessions, and pgbench with new connections all the time: none on it";
        self.timeline.tell(format!("{NEWCOMERS} {words}"));
        Ok(())
    }

    /// Ends the sessions on the drained replica, and waits for zero.
    fn end_sessions_on_drained(&mut self) -> Result<(), Failure> {
        for client in self.service.take_clients_of(DRAINED) {
            self.service.end(client)?;
        }
        self.timeline.tell(format!("the sessions on replica {DRAINED} have ended"));
        self.service.wait_until("the drained replica reads zero", |status| {
            status.rows[DRAINED].connections == 0
        })?;
        let payments = self.service.check_payments(DRAINED)?;
        let words = format!(
            "replica {DRAINED} reads zero, and has all {payments} payments of its sessions"
        );
        self.timeline.tell(words);
        Ok(())
    }

    fn unplug(&mut self, crowd: &mut Load) -> Result<(), Failure> {
        let row = self.service.look()?.rows.swap_remove(DRAINED);
        ensure(row.standing == Standing::MayBeUnplugged, format!("at zero: {row:?}"))?;
        self.service.replicas[DRAINED].stop()?;
        self.service.work()?;
        crowd.check()?;
        self.timeline.tell(format!("replica {DRAINED} is stopped, and nobody notices"));
        Ok(())
    }

    /// Ends all sessions, and looks at what the packets say.
    fn close(mut self, impairment: Impairment) -> Result<(), Failure> {
        let clock = self.service.end_all()?;
        self.timeline.tell(format!("every replica reads 0 at clock {clock}"));
        for server in (0..REPLICAS).filter(|&server| server != DRAINED) {
            self.service.check_payments(server)?;
        }
        tell_links(self.timeline, impairment.stop()?)?;
        let verdict = self.service.judge(LEAST_PACKETS)?;
        let opened = verdict.book.opened(DRAINED);
        ensure(
            opened == EACH,
            format!("{opened} connections were opened on replica {DRAINED}, not {EACH}"),
        )?;
        verdict.tell_zero(DRAINED, self.timeline)
    }
}

/// Tells what became of the packets; links on which nothing happened prove nothing.
fn tell_links(timeline: &Timeline, impaired: Impaired) -> Result<(), Failure> {
    let (counts, [to_director, to_server, from_server, to_client]) =
        (impaired.counts, impaired.legs);
    timeline.tell(format!("the relay: {counts}; nftables dropped {}", impaired.dropped));
    timeline.tell(format!(
        "it let go {to_director} packets from client to director, {to_server} to replicas, {from_server} back to the director, \
         {to_client} to the client; none went past it"
    ));
    let happened = [counts.lost, counts.duplicated, counts.reordered, impaired.dropped];
    let words = format!(
        "nothing was lost, duplicated, reordered or dropped, {happened:?}: the run shows nothing"
    );
    ensure(happened.iter().all(|&packets| packets > 0), words)
}

/// Asks for many rows, and holds each against what it must be.
fn read_long_answer(session: &mut Session) -> Result<(), Failure> {
    let rows = session
        .ask(&format!("select n || repeat(' paid', 20) from generate_series(1, {ROWS}) n"))?;
    let want = (1..=ROWS).map(|n| n.to_string() + &" paid".repeat(20));
    let right =
        rows.len() == ROWS as usize && rows.iter().zip(want).all(|(row, want)| *row == want);
    ensure(right, format!("a long answer of replica {} came damaged", session.server))
}
