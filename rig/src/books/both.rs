//! Both books: each count is held against the sessions at once, and against the packets in the end.

use crate::books::observation::Observation;
use crate::books::sessions::SessionBook;
use crate::books::Book;
use crate::lab::director::Director;
use crate::lab::status::Status;
use crate::lab::Failure;

/// The two books of one service.
pub struct Both {
    /// What clients and replicas know.
    pub sessions: SessionBook,
    /// What the packets will tell.
    pub observation: Observation,
}

impl Book for Both {
    fn look(&mut self, director: &Director) -> Result<Status, Failure> {
        let status = self.observation.look(director)?;
        self.sessions.check(&status)?;
        Ok(status)
    }

    fn opened(&mut self, server: usize, port: u16) {
        self.sessions.opened(server, port);
        self.observation.opened(server, port);
    }

    fn ended(&mut self, port: u16, before: u32, after: u32) {
        self.sessions.ended(port, before, after);
        self.observation.ended(port, before, after);
    }

    fn crowd_came(&mut self, servers: Vec<usize>) {
        self.sessions.crowd_came(servers.clone());
        self.observation.crowd_came(servers);
    }

    fn crowd_went(&mut self, after: u32) {
        self.sessions.crowd_went(after);
        self.observation.crowd_went(after);
    }

    fn close(&mut self) -> Result<(), Failure> {
        self.sessions.close()?;
        self.observation.close()
    }
}
