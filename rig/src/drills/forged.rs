//! The drill of forged packets: resets with a session's addresses and ports, and numbers or checksums that no host sends.
//!
//! The director looks at neither. So without a firewall each ends a session: its count falls while the session lives, and the session's next
//! packet belongs to nobody. With the firewall of `contrib/` on the director's host they don't come to it.

use super::service::{counts, Service, PATIENCE};
use crate::books::observation::Observation;
use crate::lab::director::Options;
use crate::lab::network::{self, live_sockets, CLIENT, VIRTUAL, VIRTUAL_PORT};
use crate::lab::{ensure, wait_for, Failure, Lab};
use crate::links::capture;
use crate::links::firewall::Firewall;
use crate::links::forged::{Checksum, Forger};
use crate::links::packet::Packet;
use crate::load::payments::Client;
use crate::timeline::Timeline;
use std::time::Duration;

/// Sessions on each replica.
const EACH: usize = 3;
/// The director's clock: the 120 s of a finished connection take 6 s, the 30 s of an opening one 1.5 s.
const CLOCK_SPEED: u32 = 20;
/// A sequence number that no session has by then.
const NO_ONES: u32 = 1;
/// How long a client may take to learn that its session was cut.
const AT_ONCE: Duration = Duration::from_secs(1);
/// New connections of one address, far more at once than the firewall lets through: 100, and 20 in each second.
const SYNS: u32 = 600;
const LET_THROUGH: usize = 200;
/// Fewer packets than leave the director in any run.
const LEAST_PACKETS: usize = 300;

/// Runs the drill.
pub fn run(lab: &Lab, timeline: &Timeline) -> Result<(), Failure> {
    timeline.title("Forged resets, without a firewall and with it");
    let mut service = Service::observe(lab, timeline, &Options::at_speed(CLOCK_SPEED))?;
    let forger = Forger::new(lab)?;
    service.open_on_each(EACH)?;
    service.expect_forged(NO_ONES);
    let mut drill = Drill { lab, timeline, service, forger };
    drill.cut("a wrong sequence number", Checksum::Right)?;
    drill.cut("a wrong checksum too", Checksum::Wrong)?;
    let firewall = Firewall::load(lab)?;
    drill.service.work()?;
    timeline.tell(
        "the firewall of contrib/nidhaaguf.nft is loaded; the sessions that were there go on",
    );
    drill.open_behind_firewall()?;
    drill.withstand(&firewall)?;
    drill.limit(&firewall)?;
    drill.disconnect()?;
    drill.close()
}

struct Drill<'a> {
    lab: &'a Lab,
    timeline: &'a Timeline,
    service: Service<'a, Observation>,
    forger: Forger<'a>,
}

impl Drill<'_> {
    fn tell(&self, words: impl AsRef<str>) {
        self.timeline.tell(words);
    }

    fn reset(&self, client: &Client, sequence: u32, checksum: Checksum) -> Result<(), Failure> {
        let service = format!("{VIRTUAL}:{VIRTUAL_PORT}");
        self.forger.reset(&client.address(), &service, sequence, checksum)
    }

    /// The client's next statement must fail at once, since its session was cut. Gives the words for it.
    fn must_learn(&mut self, mut client: Client) -> Result<String, Failure> {
        let (took, told) = client.must_fail()?;
        let words = format!("its next statement fails after {} ms", took.as_millis());
        ensure(took < AT_ONCE, format!("{words}: {told}"))?;
        let reason = told.lines().find(|line| line.contains("reset") || line.contains("closed"));
        ensure(reason.is_some(), format!("{words}, and not by a reset: {told}"))?;
        self.service.lose(client);
        Ok(words)
    }

    /// A forged reset ends the oldest session, which is then cut.
    fn cut(&mut self, what: &str, checksum: Checksum) -> Result<(), Failure> {
        let client = self.service.clients.remove(0);
        let server = client.session.server;
        let before = self.service.look()?.rows[server].connections;
        self.reset(&client, NO_ONES, checksum)?;
        let status = self
            .service
            .wait_until("the count falls", |status| status.rows[server].connections < before)?;
        self.tell(format!("a forged reset with {what}: replica {server} has a session that doesn't count any more, {}", counts(&status)));
        let words = self.must_learn(client)?;
        self.tell(format!("{words}, by a reset of the director, which doesn't know it"));
        Ok(())
    }

    /// Sessions that the firewall has seen from their beginning.
    fn open_behind_firewall(&mut self) -> Result<(), Failure> {
        (0..EACH).try_for_each(|_| self.service.open().map(|_| ()))?;
        let status = self.service.look()?;
        self.tell(format!("{EACH} new sessions: {}", counts(&status)));
        self.service.work()
    }

    /// Forged resets don't come to the director; one that nothing is wrong with does.
    fn withstand(&mut self, firewall: &Firewall) -> Result<(), Failure> {
        let last = self.service.clients.len() - 1;
        self.drop_forged(firewall, last, None, Checksum::Right, "a wrong sequence number")?;
        let next = self.next_sequence(last)?;
        self.service.expect_forged(next);
        self.drop_forged(
            firewall,
            last,
            Some(next),
            Checksum::Wrong,
            "the right number and a wrong checksum",
        )?;
        let next = self.next_sequence(last)?;
        let client = self.service.clients.remove(last);
        let (server, before) =
            (client.session.server, self.service.look()?.rows[client.session.server].connections);
        self.reset(&client, next, Checksum::Right)?;
        self.service
            .wait_until("the count falls", |status| status.rows[server].connections < before)?;
        let words = self.must_learn(client)?;
        self.tell(format!(
            "with both right it can't be told from the client's own, and ends the session: {words}"
        ));
        Ok(())
    }

    /// A forged reset for the session at that place is dropped by the firewall, and all sessions go on.
    fn drop_forged(
        &mut self,
        firewall: &Firewall,
        place: usize,
        sequence: Option<u32>,
        checksum: Checksum,
        what: &str,
    ) -> Result<(), Failure> {
        let (before, (invalid, _)) = (counts(&self.service.look()?), firewall.dropped()?);
        self.reset(&self.service.clients[place], sequence.unwrap_or(NO_ONES), checksum)?;
        wait_for("the firewall drops a forged reset", AT_ONCE, || {
            Ok((firewall.dropped()?.0 > invalid).then_some(()))
        })?;
        self.service.work()?;
        let after = counts(&self.service.look()?);
        ensure(before == after, format!("{before} became {after}"))?;
        self.tell(format!(
            "a forged reset with {what}: dropped by the firewall; all sessions go on, {after}"
        ));
        Ok(())
    }

    /// The sequence number that the session at that place will use next.
    fn next_sequence(&mut self, place: usize) -> Result<u32, Failure> {
        let client = &mut self.service.clients[place];
        let filter = format!("tcp and src host {CLIENT} and src port {}", client.session.port);
        let next = |packet: &Packet| Some(packet.sequence()?.wrapping_add(packet.length()?));
        wait_for("the packets of a session are seen", PATIENCE, || {
            let ((), packets) = capture::during(self.lab, &filter, || client.work())?;
            Ok(packets.and_then(|packets| packets.iter().filter_map(next).next_back()))
        })
    }

    /// One address opens too many connections at once: it is refused most of them, and nobody else notices.
    fn limit(&mut self, firewall: &Firewall) -> Result<(), Failure> {
        let (before, (_, limited)) = (self.service.director.openings()?, firewall.dropped()?);
        self.forger.flood(SYNS, 1)?;
        let (_, now) = firewall.dropped()?;
        let opened = self.service.director.openings()? - before;
        let words = format!("{SYNS} SYNs from one address: {opened} connections are opened, the firewall dropped {}", now - limited);
        ensure(
            opened > 0
                && opened < LET_THROUGH
                && opened + (now - limited) as usize == SYNS as usize,
            &words,
        )?;
        self.service.open()?;
        self.service.work()?;
        self.tell(format!("{words}; another client's session is served, and all sessions go on"));
        Ok(())
    }

    /// The firewall doesn't keep from either end what the director says to end a session.
    fn disconnect(&mut self) -> Result<(), Failure> {
        let client = self.service.clients.pop().expect("a session was opened");
        let (server, port) = (network::server(client.session.server), client.session.port);
        self.service.director.disconnect(&client.address())?;
        wait_for("the replica learns it", AT_ONCE, || {
            Ok((live_sockets(self.lab, &server, Some(port))? == 0).then_some(()))
        })?;
        let words = self.must_learn(client)?;
        self.tell(format!(
            "an operator disconnects a session, also through the firewall: its replica learns it at once, and {words}"
        ));
        Ok(())
    }

    /// Ends all sessions, and looks at what the packets say.
    fn close(mut self) -> Result<(), Failure> {
        self.service
            .clients
            .iter_mut()
            .filter(|client| client.is_in_transaction())
            .try_for_each(Client::commit)?;
        let clock = self.service.end_all()?;
        self.tell(format!("every replica reads 0 at clock {clock}"));
        let payments = self.service.check_all_payments()?;
        let timeline = self.timeline;
        let verdict = self.service.judge(LEAST_PACKETS)?;
        timeline.tell(format!("{} packets of unknown connections were answered with a reset; {payments} payments, none lost", verdict.book.answered()));
        Ok(())
    }
}
