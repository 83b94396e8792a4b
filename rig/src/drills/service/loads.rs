//! Loads by pgbench, whose connections are in the book.

use super::{counts, Service, PATIENCE};
use crate::books::Book;
use crate::lab::postgres::Logged;
use crate::lab::{ensure, network, wait_for, Failure, REPLICAS};
use crate::load::pgbench::{Load, Plan, Report};

/// A load with connections that it keeps.
pub struct Kept {
    load: Load,
    /// Its connections: the number of the replica and the client's port.
    pub connections: Vec<(usize, u16)>,
}

impl Kept {
    /// Fails if it has ended by itself.
    pub fn check(&mut self) -> Result<(), Failure> {
        self.load.check()
    }
}

impl<B: Book> Service<'_, B> {
    /// Starts a load that keeps its connections, some of them on the replica that will be drained.
    pub fn start_kept(&mut self, plan: Plan, drained: usize) -> Result<Kept, Failure> {
        let kept = self.open_kept(plan)?;
        let here = kept.connections.iter().filter(|(server, _)| *server == drained).count();
        ensure(here > 0, format!("the load has no connection on replica {drained}"))?;
        let status = self.look()?;
        self.timeline.tell(format!(
            "pgbench with {} connections that it keeps, {here} of them on replica {drained}: {}",
            plan.clients,
            counts(&status)
        ));
        Ok(kept)
    }

    /// Starts such a load, and waits until all its connections are in the book. The first one ends at once: by it pgbench asks
    /// for the database's settings.
    fn open_kept(&mut self, plan: Plan) -> Result<Kept, Failure> {
        let before = self.look()?.clock;
        let known = self.connections()?;
        let mut load = Load::start(self.lab, plan)?;
        let fresh = wait_for("the connections of the load", PATIENCE, || {
            load.check()?;
            let fresh = self.connections_after(&known)?;
            let open = fresh.iter().filter(|(_, connection)| !connection.ended).count();
            Ok((open == plan.clients && fresh.len() == open + 1).then_some(fresh))
        })?;
        let mut kept = Kept { load, connections: Vec::new() };
        for (server, Logged { port, ended }) in fresh {
            self.book.opened(server, port);
            if ended {
                network::wait_until_closed(self.lab, server, port)?;
                self.book.ended(port, before, self.director.status()?.clock);
            } else {
                kept.connections.push((server, port));
            }
        }
        self.look()?;
        Ok(kept)
    }

    /// Ends a load with kept connections.
    pub fn end_kept(&mut self, kept: Kept) -> Result<Report, Failure> {
        let before = self.look()?.clock;
        let report = kept.load.end()?;
        for &(server, port) in &kept.connections {
            network::wait_until_closed(self.lab, server, port)?;
        }
        let after = self.director.status()?.clock;
        kept.connections.iter().for_each(|&(_, port)| self.book.ended(port, before, after));
        self.look()?;
        Ok(report)
    }

    /// Starts a load that opens a connection for each transaction, and waits until each replica but the drained one has received
    /// some.
    pub fn start_crowd(&mut self, plan: Plan, drained: usize) -> Result<Load, Failure> {
        let servers: Vec<usize> = (0..REPLICAS).filter(|&server| server != drained).collect();
        let before = self.connections()?;
        self.book.crowd_came(servers.clone());
        let mut crowd = Load::start(self.lab, plan)?;
        wait_for("connections of the load on each replica", PATIENCE, || {
            crowd.check()?;
            let now = self.connections()?;
            Ok(servers.iter().all(|&server| now[server] > before[server]).then_some(()))
        })?;
        let rate = plan.rate;
        self.timeline
            .tell(format!("pgbench with a new connection for each transaction, {rate} a second"));
        Ok(crowd)
    }

    /// Ends that load, and waits until no connection is left but those of open sessions.
    pub fn end_crowd(&mut self, crowd: Load) -> Result<Report, Failure> {
        let report = crowd.end()?;
        wait_for("the end of the load's connections", PATIENCE, || {
            let mut live = network::live_sockets(self.lab, "client", None)?;
            for server in 0..REPLICAS {
                live += network::live_sockets(self.lab, &network::server(server), None)?;
            }
            Ok((live == 2 * self.clients.len()).then_some(()))
        })?;
        self.book.crowd_went(self.director.status()?.clock);
        self.look()?;
        Ok(report)
    }

    /// The connections that came after those, each with its replica.
    fn connections_after(&self, known: &[usize]) -> Result<Vec<(usize, Logged)>, Failure> {
        let mut fresh = Vec::new();
        for (replica, &known) in self.replicas.iter().zip(known) {
            let all = replica.connections()?;
            fresh
                .extend(all.into_iter().skip(known).map(|connection| (replica.number, connection)));
        }
        Ok(fresh)
    }
}
