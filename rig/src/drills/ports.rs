//! The drill of ports that come back early: the client has no more ports than sessions, so each later session has the port of one
//! that has just ended, and whose finished connection still counts.
//!
//! Such a session is a connection of its own. It gets its replica by the weights as they are now, never a drained one, and stays
//! as long as any other; the finished one is taken off in the same moment, and doesn't keep its replica from zero.

use super::service::{counts, listed, Service};
use crate::books::both::Both;
use crate::books::observation::Observation;
use crate::books::sessions::SessionBook;
use crate::books::FINISHED;
use crate::lab::director::Options;
use crate::lab::status::Status;
use crate::lab::{ensure, network, Failure, Lab, REPLICAS};
use crate::load::payments::Client;
use crate::timeline::Timeline;
use programs::SYSCTL;

/// The replica that is drained.
const DRAINED: usize = 0;
/// Sessions on each replica before the drain.
const EACH: usize = 2;
/// The client's ports, as many as these sessions.
const PORTS: [u16; 2] = [40000, 40000 + (EACH * REPLICAS) as u16 - 1];
/// As application servers are often set up: a port may be used again a second after its connection was closed.
const REUSE: &str = "net.ipv4.tcp_tw_reuse=1";
/// For how long a session says nothing, in seconds of the director's clock: longer than a finished connection counts.
const SILENCE: u32 = FINISHED + 20;
/// Fewer packets than leave the director in any run.
const LEAST_PACKETS: usize = 300;

/// How the drill takes its time. A port comes back in one or two seconds, and has to within 120 s of the director's clock.
#[derive(Clone, Copy, Debug)]
pub struct Pace {
    /// How many times as fast as real time the director's clock runs.
    pub clock_speed: u32,
    /// How often sessions end and begin after the drained replica was stopped.
    pub rounds: u32,
}

impl Pace {
    /// For the test command.
    pub const SHORT: Pace = Pace { clock_speed: 20, rounds: 1 };
    /// For a person who follows it.
    pub const FULL: Pace = Pace { clock_speed: 8, rounds: 5 };
}

/// Runs the drill.
pub fn run(lab: &Lab, timeline: &Timeline, pace: Pace) -> Result<(), Failure> {
    timeline.title("Ports come back early, while a replica is drained");
    let options = Options::at_speed(pace.clock_speed);
    let mut service = Service::start(lab, timeline, &options, |director| Both {
        sessions: SessionBook::default(),
        observation: Observation::begin(director, pace.clock_speed),
    })?;
    network::send_once(lab, REPLICAS)?;
    let [first, last] = PORTS;
    let ports = format!("net.ipv4.ip_local_port_range={first} {last}");
    lab.output("client", SYSCTL, &["-q", "-w", REUSE, &ports])?;
    timeline.tell(format!(
        "the client has the ports {first} to {last}, and may use one again after a second"
    ));
    service.open_on_each(EACH)?;
    service.clients.iter_mut().try_for_each(Client::commit)?;
    let mut drill = Drill { timeline, service, returned: 0 };
    let before = drill.drain()?;
    let silent = drill.come_back()?;
    drill.stay_silent(silent)?;
    drill.empty(&before)?;
    drill.unplug(pace.rounds)?;
    drill.close()
}

struct Drill<'a> {
    timeline: &'a Timeline,
    service: Service<'a, Both>,
    /// Sessions from ports that came back.
    returned: usize,
}

impl Drill<'_> {
    fn tell(&self, words: impl AsRef<str>) {
        self.timeline.tell(words);
    }

    /// A look for the books, held against the replicas' sockets too.
    fn look(&mut self) -> Result<Status, Failure> {
        let status = self.service.look()?;
        status.rows.iter().try_for_each(|row| self.service.check_sockets(row))?;
        Ok(status)
    }

    /// Opens so many sessions, each from a port that came back. Gives their replicas.
    fn open(&mut self, sessions: usize) -> Result<Vec<usize>, Failure> {
        let servers = self.service.open_newcomers(sessions, DRAINED)?;
        self.returned += sessions;
        self.look()?;
        Ok(servers)
    }

    /// A session on the replica ends, and the replica is drained. Gives how many connections each replica had by then.
    fn drain(&mut self) -> Result<Vec<usize>, Failure> {
        self.service.end_oldest_on(DRAINED)?;
        let before = self.service.connections()?;
        let row = self.service.drain(DRAINED)?;
        self.tell(format!(
            "a session on replica {DRAINED} ends, and replica {DRAINED} is drained: weight 0, {} connections",
            row.connections
        ));
        Ok(before)
    }

    /// The port of that session comes back, to another replica. Gives the new session, which pays once.
    fn come_back(&mut self) -> Result<Client, Failure> {
        let servers = self.open(1)?;
        let counts = counts(&self.look()?);
        self.tell(format!(
            "its port comes back: the new session is on replica {}, {counts}",
            listed(servers)
        ));
        let mut client = self.service.clients.pop().expect("a session was opened");
        client.work()?;
        Ok(client)
    }

    /// Sessions on the other replicas end, and as many begin from their ports.
    fn come_and_go(&mut self) -> Result<(), Failure> {
        for server in (0..REPLICAS).filter(|&server| server != DRAINED) {
            self.service.end_oldest_on(server)?;
        }
        self.look()?;
        self.open(REPLICAS - 1)?;
        self.service.work()
    }

    /// That session says nothing while others come and go, and then pays.
    fn stay_silent(&mut self, mut silent: Client) -> Result<(), Failure> {
        let (since, returned) = (self.look()?.clock, self.returned);
        let clock = loop {
            self.come_and_go()?;
            let clock = self.look()?.clock;
            if clock > since + SILENCE {
                break clock;
            }
        };
        let came = self.returned - returned;
        self.tell(format!(
            "{came} sessions end, and their ports come back: none to replica {DRAINED}"
        ));
        silent.work()?;
        let (silence, server) = (clock - since, silent.session.server);
        self.tell(format!("the first one said nothing for {silence} s of the clock, and then pays, on its replica {server}"));
        self.service.clients.push(silent);
        Ok(())
    }

    /// The last session on the drained replica ends, and its port comes back: the replica reads zero.
    fn empty(&mut self, before: &[usize]) -> Result<(), Failure> {
        self.service.end_oldest_on(DRAINED)?;
        let count = self.look()?.rows[DRAINED].connections;
        self.tell(format!("the last session on replica {DRAINED} ends; its count reads {count}"));
        let servers = self.open(1)?;
        let elsewhere = self.service.check_free(DRAINED, before)?;
        let clock = self.look()?.clock;
        self.tell(format!(
            "its port comes back, on replica {}: replica {DRAINED} reads 0 at clock {clock}, and may be unplugged",
            listed(servers)
        ));
        self.tell(format!(
            "ss shows no connection there, and its log none since the drain, while the others received {elsewhere}"
        ));
        Ok(())
    }

    fn unplug(&mut self, rounds: u32) -> Result<(), Failure> {
        self.service.check_payments(DRAINED)?;
        self.service.replicas[DRAINED].stop()?;
        for _ in 0..rounds {
            self.come_and_go()?;
        }
        let sessions = self.service.clients.len();
        self.tell(format!(
            "replica {DRAINED} is stopped, and nobody notices: {sessions} sessions pay"
        ));
        Ok(())
    }

    /// Ends all sessions, and holds what the director says against the logs and the packets.
    fn close(mut self) -> Result<(), Failure> {
        for server in (0..REPLICAS).filter(|&server| server != DRAINED) {
            self.service.check_payments(server)?;
        }
        let clock = self.service.end_all()?;
        self.tell(format!("every replica reads 0 at clock {clock}, none too early or too late"));
        let openings = self.service.check_openings()?;
        let (timeline, returned) = (self.timeline, self.returned);
        let (books, captured) = self.service.finish(LEAST_PACKETS)?;
        timeline.tell(openings);
        let verdict = books.observation.hold_against(&captured.device, timeline)?;
        let early = verdict.book.renewals();
        let words = format!("{returned} sessions were from a port that came back, {early} of them while its finished connection counted");
        ensure(early > 0, format!("{words}: the run shows nothing"))?;
        timeline.tell(words);
        Ok(())
    }
}
