//! A drained replica: no new session comes to it, and at zero it has none.

use super::Service;
use crate::books::Book;
use crate::lab::status::{Row, Standing};
use crate::lab::{ensure, network, Failure};

impl<B: Book> Service<'_, B> {
    /// Drains a replica that has connections, and gives its row.
    pub fn drain(&mut self, server: usize) -> Result<Row, Failure> {
        self.director.drain(server)?;
        self.check_draining(server)
    }

    /// A drained replica that has connections must still be drained. Gives its row.
    pub fn check_draining(&mut self, server: usize) -> Result<Row, Failure> {
        let row = self.look()?.rows.swap_remove(server);
        let draining = (row.weight, row.standing) == (0, Standing::Draining);
        ensure(draining, format!("after the drain: {row:?}"))?;
        Ok(row)
    }

    /// Opens so many sessions, of which none may come to the drained replica. Gives their replicas.
    pub fn open_newcomers(
        &mut self,
        sessions: usize,
        drained: usize,
    ) -> Result<Vec<usize>, Failure> {
        let servers: Result<Vec<usize>, Failure> = (0..sessions).map(|_| self.open()).collect();
        let servers = servers?;
        let words = format!("new sessions came to replicas {servers:?}, and {drained} is drained");
        ensure(!servers.contains(&drained), words)?;
        Ok(servers)
    }

    /// A replica to which no session comes meanwhile may not have more connections of the client, by its own sockets, than its
    /// row says.
    pub fn check_sockets(&self, row: &Row) -> Result<(), Failure> {
        let (number, count) = (row.number, row.connections);
        let sockets = network::live_sockets(self.lab, &network::server(number), None)?;
        let words =
            format!("replica {number} reads {count}, and ss shows {sockets} connections on it");
        ensure(sockets <= count as usize, words)
    }

    /// No connection may have come to the drained replica since the drain, by its own log. Gives how many the others have received.
    pub fn check_unvisited(&self, drained: usize, before: &[usize]) -> Result<usize, Failure> {
        let now = self.connections()?;
        let fresh: Vec<usize> = now.iter().zip(before).map(|(now, before)| now - before).collect();
        let words = format!("replica {drained} received a connection after its drain");
        ensure(fresh[drained] == 0, words)?;
        Ok(fresh.iter().sum())
    }

    /// The drained replica must be free by what the director says of it; no connection has come to it since the drain, and it
    /// knows of no session. Gives how many the others have received.
    pub fn check_free(&mut self, drained: usize, before: &[usize]) -> Result<usize, Failure> {
        let row = self.look()?.rows.swap_remove(drained);
        let free = (row.connections, row.standing) == (0, Standing::MayBeUnplugged);
        ensure(free, format!("replica {drained} has no session and is not free: {row:?}"))?;
        ensure(self.director.count(drained)? == 0, "count and status differ")?;
        self.check_sockets(&row)?;
        let left = self.replicas[drained].sessions()?;
        ensure(left == 0, format!("replica {drained} itself knows of {left} sessions"))?;
        self.check_unvisited(drained, before)
    }
}
