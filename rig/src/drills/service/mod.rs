//! The service that is drilled: replicas, the director before them, the clients, and one of the two books of what the counts
//! must be.

mod drained;
mod loads;
mod observed;

pub use loads::Kept;

use crate::books::{Book, FINISHED};
use crate::lab::director::{Director, Options};
use crate::lab::network::{self, VIRTUAL, VIRTUAL_PORT};
use crate::lab::postgres::Postgres;
use crate::lab::status::Status;
use crate::lab::{ensure, wait_for, Failure, Lab, REPLICAS};
use crate::links::capture::{Captured, Captures};
use crate::load::payments::Client;
use crate::timeline::Timeline;
use std::sync::Arc;
use std::time::Duration;

/// How long anything that is waited for may take.
pub const PATIENCE: Duration = Duration::from_secs(120);

/// The whole of it, running.
pub struct Service<'a, B> {
    /// The live director.
    pub director: Arc<Director>,
    /// The replicas, by number.
    pub replicas: Vec<Postgres>,
    /// The clients with open sessions, the oldest first.
    pub clients: Vec<Client>,
    /// What the counts must be.
    pub book: B,
    /// Statements of ended sessions that were answered as they must be.
    pub statements: u32,
    lab: &'a Lab,
    timeline: &'a Timeline,
    captures: Captures,
    opened: u32,
    /// Payments that ended sessions have committed, by replica.
    committed: [u32; REPLICAS],
}

impl<'a, B: Book> Service<'a, B> {
    /// Makes the network, and starts the replicas, the director, the captures and the book.
    pub fn start(
        lab: &'a Lab,
        timeline: &'a Timeline,
        options: &Options,
        book: impl FnOnce(&Arc<Director>) -> B,
    ) -> Result<Service<'a, B>, Failure> {
        network::make(lab, REPLICAS)?;
        let replicas = Postgres::start_all(lab, REPLICAS)?;
        timeline.tell(format!("{REPLICAS} replicas run: PostgreSQL, each in a network namespace"));
        let director = Arc::new(Director::start(lab, options)?);
        director.make_routes()?;
        let captures = Captures::start(lab, REPLICAS)?;
        timeline.tell(format!(
            "the director serves {VIRTUAL}:{VIRTUAL_PORT}, {}; tcpdump is on its device and on all its links",
            options.scheduler
        ));
        let clock_speed = options.clock_speed;
        if clock_speed > 1 {
            timeline.tell(format!(
                "its clock runs {clock_speed} times as fast: the {FINISHED} s for which a finished connection counts take {} s",
                FINISHED / clock_speed
            ));
        }
        let book = book(&director);
        let (clients, statements, opened, committed) = (Vec::new(), 0, 0, [0; REPLICAS]);
        Ok(Service {
            director,
            replicas,
            clients,
            book,
            statements,
            lab,
            timeline,
            captures,
            opened,
            committed,
        })
    }

    /// The director's status, for the book too.
    pub fn look(&mut self) -> Result<Status, Failure> {
        self.book.look(&self.director)
    }

    /// Looks until the status is as wished.
    pub fn wait_until(
        &mut self,
        what: &str,
        wished: impl Fn(&Status) -> bool,
    ) -> Result<Status, Failure> {
        wait_for(what, PATIENCE, || Ok(Some(self.look()?).filter(&wished)))
    }

    /// Opens a session, and gives the number of its replica.
    pub fn open(&mut self) -> Result<usize, Failure> {
        let client = Client::open(self.lab, self.opened)?;
        let server = client.session.server;
        self.opened += 1;
        self.book.opened(server, client.session.port);
        self.clients.push(client);
        self.look()?;
        Ok(server)
    }

    /// Opens so many sessions on each replica, each with a payment in an open transaction.
    pub fn open_on_each(&mut self, sessions: usize) -> Result<(), Failure> {
        for number in 0..sessions * REPLICAS {
            let server = self.open()?;
            // The fewest connections, and the lowest number among equals.
            let words =
                format!("session {number} is on replica {server} and not where the fewest are");
            ensure(server == number % REPLICAS, words)?;
        }
        self.clients.iter_mut().try_for_each(Client::begin)?;
        let status = self.look()?;
        self.timeline.tell(format!(
            "{} sessions through the director, each with a payment in an open transaction: {}",
            self.clients.len(),
            counts(&status)
        ));
        Ok(())
    }

    /// Lets every session do some work.
    pub fn work(&mut self) -> Result<(), Failure> {
        self.clients.iter_mut().try_for_each(Client::work)
    }

    /// The clients whose sessions are on that replica; they are no longer among those of the service.
    pub fn take_clients_of(&mut self, server: usize) -> Vec<Client> {
        let clients = std::mem::take(&mut self.clients);
        let (here, others) =
            clients.into_iter().partition(|client| client.session.server == server);
        self.clients = others;
        here
    }

    /// Ends the oldest session on that replica.
    pub fn end_oldest_on(&mut self, server: usize) -> Result<(), Failure> {
        let oldest = self.clients.iter().position(|client| client.session.server == server);
        let client = self.clients.remove(oldest.expect("a session on that replica"));
        self.end(client)
    }

    /// Ends a session.
    pub fn end(&mut self, client: Client) -> Result<(), Failure> {
        ensure(!client.is_in_transaction(), "the drill ends a session in its transaction")?;
        self.statements += client.statements;
        self.committed[client.session.server] += client.committed;
        let (port, before) = (client.session.port, self.look()?.clock);
        client.session.end()?;
        // Not yet a look of the book: it doesn't know of the end.
        self.book.ended(port, before, self.director.status()?.clock);
        self.look()?;
        Ok(())
    }

    /// A session was cut, and can't be ended any more; what it has committed counts.
    pub fn lose(&mut self, client: Client) {
        self.statements += client.statements;
        self.committed[client.session.server] += client.committed;
    }

    /// A reset of that sequence number will be forged, and its checksums need not be right.
    pub fn expect_forged(&mut self, sequence: u32) {
        self.captures.forged.push(sequence);
    }

    /// Ends all sessions, and waits until every count reads zero. Gives the clock of that look.
    pub fn end_all(&mut self) -> Result<u32, Failure> {
        let clients = std::mem::take(&mut self.clients);
        clients.into_iter().try_for_each(|client| self.end(client))?;
        self.timeline.tell("all sessions have ended");
        Ok(self.wait_until("every count reads zero", |status| status.used == 0)?.clock)
    }

    /// Asks that replica directly whether it has every payment that was committed on it, and no other.
    pub fn check_payments(&self, server: usize) -> Result<u32, Failure> {
        let here = self.clients.iter().filter(|client| client.session.server == server);
        let want = self.committed[server] + here.map(|client| client.committed).sum::<u32>();
        let found = self.replicas[server].ask("select count(*) from payments")?;
        let words = format!("replica {server} has {found:?} payments and not {want}");
        ensure(found == [want.to_string()], words)?;
        Ok(want)
    }

    /// Asks each running replica whether it has every payment, and gives their sum.
    pub fn check_all_payments(&self) -> Result<u32, Failure> {
        let running = self.replicas.iter().filter(|replica| replica.is_running());
        running.map(|replica| self.check_payments(replica.number)).sum()
    }

    /// How many connections of the client each replica has had so far, by its own log.
    pub fn connections(&self) -> Result<Vec<usize>, Failure> {
        self.replicas.iter().map(|replica| Ok(replica.connections()?.len())).collect()
    }

    /// The director must have opened as many connections as the replicas have received, by their logs. Gives the words for it.
    pub fn check_openings(&self) -> Result<String, Failure> {
        let (opened, logged) = (self.director.openings()?, self.connections()?.iter().sum());
        let words = format!("the director opened {opened} connections");
        ensure(opened == logged, format!("{words}, the replicas' logs tell {logged}"))?;
        Ok(format!("{words}, as many as the replicas' logs tell"))
    }

    /// Ends all. Every checksum that left must be right, and at least so many packets must have left.
    pub fn finish(mut self, least: usize) -> Result<(B, Captured), Failure> {
        self.book.close()?;
        let captured = self.captures.finish(least)?;
        self.timeline.tell(format!(
            "{} packets left the director for the client and the replicas: every IPv4 and TCP checksum is right",
            captured.left
        ));
        Arc::into_inner(self.director).expect("a closed book looks no more").stop()?;
        Ok((self.book, captured))
    }
}

/// The counts of a status, in words.
pub fn counts(status: &Status) -> String {
    format!("counts {}", listed(status.rows.iter().map(|row| row.connections)))
}

/// Numbers with commas between them.
pub fn listed<T: ToString>(numbers: impl IntoIterator<Item = T>) -> String {
    let numbers: Vec<String> = numbers.into_iter().map(|number| number.to_string()).collect();
    numbers.join(", ")
}
