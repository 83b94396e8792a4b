//! The drill in which a replica dies without a word: its link is cut, and neither FIN nor RST comes from it.
//!
//! The director can't know. The sessions of that replica hang until their clients' TCP gives up; their connections count until
//! 900 s of the director's clock after the last segment that the clients sent again, and then no longer.

use super::service::{counts, Service};
use crate::books::observation::Observation;
use crate::lab::director::Options;
use crate::lab::network::{gateway, server};
use crate::lab::status::Standing;
use crate::lab::{ensure, wait_for, Failure, Lab, REPLICAS};
use crate::load::payments::Client;
use crate::timeline::Timeline;
use programs::{IP, SYSCTL};
use std::thread::JoinHandle;
use std::time::{Duration, Instant};

/// The replica that dies.
const DEAD: usize = 2;
/// Sessions on each replica before it dies.
const EACH: usize = 2;
/// New sessions while it is dead.
const NEWCOMERS: usize = 4;
/// Payments of each session on the others while it is dead.
const ROUNDS: u32 = 10;
/// Fewer packets than leave the director in any run.
const LEAST_PACKETS: usize = 500;
/// The director's clock: 900 s take 7.5 s.
const CLOCK_SPEED: u32 = 120;
/// How often a client's TCP sends a segment again before it gives up: after 0.2, 0.6, 1.4 and 3 s; it gives up after 6.2 s.
const RETRIES: &str = "net.ipv4.tcp_retries2=4";
/// How long the clients may take to give up, and then the count to fall.
const PATIENCE: Duration = Duration::from_secs(60);

/// Runs the drill.
pub fn run(lab: &Lab, timeline: &Timeline) -> Result<(), Failure> {
    timeline.title("A replica dies without a word");
    let mut service = Service::observe(lab, timeline, &Options::at_speed(CLOCK_SPEED))?;
    lab.output("client", SYSCTL, &["-q", "-w", RETRIES])?;
    service.open_on_each(EACH)?;
    let mut drill = Drill { lab, timeline, service };
    let dying = drill.cut_link()?;
    drill.others_go_on(&dying)?;
    drill.drain()?;
    drill.clients_give_up(dying)?;
    drill.wait_for_zero()?;
    drill.put_back()?;
    drill.close()
}

/// A session whose statement waits for an answer, with what becomes of it.
type Hanging = JoinHandle<Result<(), Failure>>;

struct Drill<'a> {
    lab: &'a Lab,
    timeline: &'a Timeline,
    service: Service<'a, Observation>,
}

impl Drill<'_> {
    /// The link of the replica is cut at its own side; its sessions send one more statement each.
    fn cut_link(&mut self) -> Result<Vec<Hanging>, Failure> {
        self.lab.output(&server(DEAD), IP, &["link", "set", "eth0", "down"])?;
        self.timeline.tell(format!("the link of replica {DEAD} is cut: no FIN, no RST"));
        let dying = self.service.take_clients_of(DEAD);
        Ok(dying.into_iter().map(|mut client| std::thread::spawn(move || client.look())).collect())
    }

    /// The sessions on the other replicas don't notice; those on the dead one hang, and still count.
    fn others_go_on(&mut self, dying: &[Hanging]) -> Result<(), Failure> {
        let mut longest = Duration::ZERO;
        self.service.clients.iter_mut().try_for_each(Client::commit)?;
        for _ in 0..ROUNDS {
            for client in &mut self.service.clients {
                let begin = Instant::now();
                client.work()?;
                longest = longest.max(begin.elapsed());
            }
            self.service.look()?;
        }
        let hanging = dying.iter().filter(|session| !session.is_finished()).count();
        ensure(
            hanging == EACH,
            format!("{hanging} sessions of the dead replica hang, not {EACH}"),
        )?;
        let row = self.service.look()?.rows.swap_remove(DEAD);
        ensure(row.connections as usize == EACH, format!("the dead replica fell early: {row:?}"))?;
        self.timeline.tell(format!(
            "{} sessions on the others make {ROUNDS} payments each, the longest in {} ms; its own {hanging} hang, and count",
            self.service.clients.len(),
            longest.as_millis()
        ));
        Ok(())
    }

    /// The drain keeps new sessions off the dead replica, also where it has the fewest.
    fn drain(&mut self) -> Result<(), Failure> {
        self.service.drain(DEAD)?;
        self.service.open_newcomers(NEWCOMERS, DEAD)?;
        let status = self.service.look()?;
        let (counts, dead) = (counts(&status), status.rows[DEAD].connections);
        let fewest = status.rows.iter().all(|row| row.number == DEAD || row.connections > dead);
        ensure(fewest, format!("the dead replica hasn't the fewest connections: {counts}"))?;
        let words =
            format!("replica {DEAD} is drained: {NEWCOMERS} new sessions go elsewhere, {counts}");
        self.timeline.tell(words);
        Ok(())
    }

    /// The clients of the dead replica end by themselves, when their TCP gives up.
    fn clients_give_up(&mut self, dying: Vec<Hanging>) -> Result<(), Failure> {
        wait_for("the sessions of the dead replica are given up", PATIENCE, || {
            self.service.work()?;
            let count = self.service.look()?.rows[DEAD].connections as usize;
            let over = dying.iter().all(Hanging::is_finished);
            ensure(over || count == EACH, format!("the dead replica fell early, to {count}"))?;
            Ok(over.then_some(()))
        })?;
        for session in dying {
            let result =
                session.join().map_err(|_| Failure("a session's thread broke off".into()))?;
            let words = format!("a session of the dead replica went on: {result:?}");
            ensure(
                result.is_err_and(|failure| failure.0.contains("connection to server was lost")),
                words,
            )?;
        }
        self.timeline.tell(format!("the {EACH} clients of replica {DEAD} have given up and ended"));
        Ok(())
    }

    /// Its count falls when nothing came for 900 s of the director's clock; the others go on meanwhile, or they would be
    /// idle too.
    fn wait_for_zero(&mut self) -> Result<(), Failure> {
        let row = wait_for("the dead replica reads zero", PATIENCE, || {
            // One session at a time, so that the count is read often.
            self.service.clients.rotate_left(1);
            self.service.clients[0].work()?;
            let row = self.service.look()?.rows.swap_remove(DEAD);
            Ok((row.connections == 0).then_some(row))
        })?;
        ensure(row.standing == Standing::MayBeUnplugged, format!("at zero: {row:?}"))?;
        let words = format!(
            "replica {DEAD} reads zero and may be unplugged; the others went on all the time"
        );
        self.timeline.tell(words);
        Ok(())
    }

    /// The link is there again: the replica gets its weight, and the next session.
    fn put_back(&mut self) -> Result<(), Failure> {
        let ip = |args: &[&str]| self.lab.output(&server(DEAD), IP, args);
        ip(&["link", "set", "eth0", "up"])?;
        // The kernel took the route away with the link.
        ip(&["route", "replace", "default", "via", &gateway(DEAD)])?;
        self.service.director.set_weight(DEAD, 1)?;
        let server = self.service.open()?;
        ensure(server == DEAD, format!("the next session went to replica {server}"))?;
        self.service.work()?;
        let words = format!(
            "the link is up and the weight is 1 again: the next session is on replica {DEAD}"
        );
        self.timeline.tell(words);
        Ok(())
    }

    /// Ends all sessions, and looks at what the packets say.
    fn close(mut self) -> Result<(), Failure> {
        let clock = self.service.end_all()?;
        self.timeline.tell(format!("every replica reads 0 at clock {clock}"));
        let payments: Result<Vec<u32>, Failure> =
            (0..REPLICAS).map(|k| self.service.check_payments(k)).collect();
        self.timeline
            .tell(format!("all committed payments are there, on replicas 0 to 2: {:?}", payments?));
        self.service.judge(LEAST_PACKETS)?.tell_zero(DEAD, self.timeline)
    }
}
