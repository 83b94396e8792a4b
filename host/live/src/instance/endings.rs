//! Connections that are ended here: for each, the library is handed an RST of its client, as any packet.

use super::Instance;
use crate::book::Ending;
use crate::policy::Unknown;
use crate::segments::Segment;
use nidhaaguf::{Burst, Change, Connection, Passed, Refusal};
use std::net::SocketAddrV4;

/// Packets that the library is handed together: a burst judges the table once, and takes a millisecond or two.
const TOGETHER: usize = 256;

impl Instance {
    /// Ends a connection, by an RST of its client; tells its server, None where there is no such connection, and of UDP, which has
    /// no such packet.
    pub fn disconnect(&mut self, client: SocketAddrV4) -> Option<usize> {
        let found = self.director.connections().find(|found| found.client == client)?;
        (self.end_by_operator(&[found]) == 1).then_some(found.server)
    }

    /// Ends all connections of a server; tells how many, which are none of UDP.
    pub fn flush(&mut self, server: usize) -> Result<u32, Refusal> {
        self.director.count(server)?;
        let of_server = |found: &Connection| found.server == server;
        let found: Vec<_> = self.director.connections().filter(of_server).collect();
        Ok(self.end_by_operator(&found))
    }

    /// Ends what is opening for as long as the policy allows, and no more at a time than packets may wait for. Such clients may not
    /// be there at all: they are asked nothing.
    pub(super) fn end_late_openings(&mut self) {
        let (clock, timeout) = (self.director.clock(), self.policy.opening_timeout);
        self.has_late = false;
        if timeout == 0 || self.book.opening() == 0 {
            return;
        }
        let is_late = |found: &Connection| self.book.is_late(found.client, clock, timeout);
        let late = self.director.connections().filter(is_late);
        // one more than are ended tells whether some are left
        let mut first: Vec<_> = late.take(TOGETHER + 1).collect();
        self.has_late = first.len() > TOGETHER;
        first.truncate(TOGETHER);
        self.end(&first, Ending::OpeningTimeout);
    }

    fn end_by_operator(&mut self, connections: &[Connection]) -> u32 {
        let ended = self.end(connections, Ending::Operator);
        if let Unknown::Reset(_) = self.policy.unknown {
            self.ask_both_ends(&ended);
        }
        ended.len() as u32
    }

    /// Ends connections; gives those that the library has ended, which are all but those of UDP.
    fn end(&mut self, connections: &[Connection], ending: Ending) -> Vec<Connection> {
        connections.chunks(TOGETHER).flat_map(|part| self.end_together(part, ending)).collect()
    }

    fn end_together(&mut self, part: &[Connection], ending: Ending) -> Vec<Connection> {
        let (clock, service) = (self.director.clock(), self.settings.service);
        let mut burst = Burst::new(part.len());
        for connection in part {
            // there is room for each
            let _ = burst.push(&Segment::reset(connection.client, service).bytes());
        }
        // never refused: the clock is its own
        let Ok(answered) = self.director.burst(&mut burst, clock) else { return Vec::new() };
        let answers = part.iter().zip(answered.packets());
        let is_ended = |answer| matches!(answer, Ok(Passed { change: Change::Ended, .. }));
        let ended = answers.filter(|(_, (_, answer))| is_ended(*answer));
        ended
            .map(|(connection, (bytes, _))| {
                self.book.end(connection.client, ending, clock);
                self.outbox.extend(<[u8; _]>::try_from(bytes));
                *connection
            })
            .collect()
    }

    /// Nobody here knows the sequence numbers, so the RST may not fit, and the client got none. Each end is sent what it answers with
    /// its numbers; that answer belongs to no connection any more, and gets a reset that fits.
    fn ask_both_ends(&mut self, ended: &[Connection]) {
        let service = self.settings.service;
        for Connection { client, server, .. } in ended {
            let server = self.settings.servers[*server].at;
            let ends = [(service, *client), (*client, server)];
            let asked = ends.map(|(from, to)| Segment::bare_acknowledgment(from, to).bytes());
            self.outbox.extend(asked);
        }
        self.resets.expect(2 * ended.len() as u32);
    }
}
