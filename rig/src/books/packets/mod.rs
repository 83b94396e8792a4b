//! The book of the packets: what a capture on the director's device says of each connection, and the counts that follow.
//!
//! Clients and replicas can't tell when a connection's last packet went through where packets are lost or doubled: a side
//! whose last segment is not acknowledged sends it again, after 0.2 s at first and then after twice the time of before; and
//! a doubled FIN that finds its receiver closed is answered by an RST, which ends the connection at once. So this book is
//! kept from the packets themselves: a connection counts until an RST, or until its idle limit after the last packet; one that
//! both sides have finished, also no longer than until its client's next SYN, which opens another. What the director itself sends
//! is held against why it may.

mod connection;
mod own;
#[cfg(test)]
mod own_tests;
#[cfg(test)]
mod tests;

use crate::books::looks::{Clock, Look, Reading};
use crate::lab::{ensure, fail, Failure};
use crate::links::packet::{server_of, Packet};
pub use connection::Moment;
use connection::{Connection, Removal};
use std::collections::{HashMap, HashSet, VecDeque};
use std::ops::RangeInclusive;

/// How many connections a failure tells.
const TOLD: usize = 5;

/// A packet that the director took.
struct Taken<'a> {
    client: &'a str,
    server: usize,
    inbound: bool,
    flags: &'a str,
    moment: Moment,
}

/// The book, of all connections from the first packet of the capture on.
#[derive(Debug, Default)]
pub struct PacketBook {
    connections: Vec<Connection>,
    newest: HashMap<String, usize>,
    handed: HashMap<String, VecDeque<Packet>>,
    /// Packets that the director was handed and never wrote.
    pub refused: Vec<Packet>,
    /// Those of them that it has answered with a reset, by their places there.
    answered: HashSet<usize>,
}

impl PacketBook {
    /// Reads the packets of the director's device, in their order. Fails where a connection's packet goes to, or comes
    /// from, another server than its first one. At each of these moments the director has lost its table.
    pub fn read(
        packets: &[Packet],
        clock: &Clock,
        losses: &[Moment],
    ) -> Result<PacketBook, Failure> {
        let mut book = PacketBook::default();
        let mut losses = losses.iter().peekable();
        for packet in packets {
            if let Some(&loss) = losses.next_if(|loss| loss.written <= packet.time) {
                book.lose_all(loss);
            }
            if packet.is_written() {
                book.written(packet, clock)?;
            } else {
                book.handed.entry(packet.client().into()).or_default().push_back(packet.clone());
            }
        }
        book.refused.extend(book.handed.drain().flat_map(|(_, packets)| packets));
        Ok(book)
    }

    fn lose_all(&mut self, moment: Moment) {
        for connection in &mut self.connections {
            connection.removed = connection.removed.or(Some((Removal::Loss, moment)));
        }
    }

    /// The director wrote a packet: it has taken the handed one that it was made from, and refused those before it.
    fn written(&mut self, packet: &Packet, clock: &Clock) -> Result<(), Failure> {
        let to = server_of(&packet.destination);
        let client = packet.client();
        let waiting = self.handed.entry(client.into()).or_default();
        let place = waiting.iter().position(|handed| handed.is_rewritten_as(packet));
        let Some(place) = place else {
            return self.written_by_itself(packet);
        };
        self.refused.extend(waiting.drain(..place));
        let handed = waiting.pop_front().expect("it was at that place");
        let moment = Moment { handed: handed.time, written: packet.time };
        let Some(server) = to.or(server_of(&handed.source)) else {
            return fail(format!("a packet from no server was taken: {handed}"));
        };
        self.take(
            Taken { client, server, inbound: to.is_some(), flags: &packet.flags, moment },
            clock,
        )
    }

    /// Enters a packet that the director took.
    fn take(&mut self, taken: Taken, clock: &Clock) -> Result<(), Failure> {
        let Taken { client, server, inbound, flags, moment } = taken;
        let is_opening = flags.contains('S') && !flags.contains(['.', 'R', 'F']);
        if inbound && is_opening {
            self.open(client, server, moment, clock);
        }
        let Some(&newest) = self.newest.get(client) else {
            return fail(format!(
                "a packet of {client} was taken before its connection was opened"
            ));
        };
        let connection = &mut self.connections[newest];
        let words = format!(
            "moved: {client} began on replica {}, and then met {server}",
            connection.server
        );
        ensure(connection.server == server, words)?;
        connection.last = moment;
        connection.is_opening &= !inbound || is_opening;
        if flags.contains('R') {
            connection.removed = Some((Removal::Reset, moment));
        }
        let finished =
            if inbound { &mut connection.client_finished } else { &mut connection.server_finished };
        *finished |= flags.contains('F');
        Ok(())
    }

    /// Enters a client's SYN: it opens a connection unless one is there that is not finished, and removes a finished one.
    fn open(&mut self, client: &str, server: usize, moment: Moment, clock: &Clock) {
        if let Some(present) = self.present(client, moment, clock) {
            if !present.is_finished() {
                return;
            }
            present.removed = Some((Removal::Renewal, moment));
        }
        self.newest.insert(client.into(), self.connections.len());
        self.connections.push(Connection::new(client, server, moment));
    }

    /// The client's newest connection, if it is still there when that packet comes.
    fn present(&mut self, client: &str, moment: Moment, clock: &Clock) -> Option<&mut Connection> {
        let connection = &mut self.connections[*self.newest.get(client)?];
        let (_, last) = clock.seconds(connection.last.handed, connection.last.written);
        let (first, _) = clock.seconds(moment.handed, moment.written);
        let there = connection.removed.is_none() && first < last + connection.limit();
        there.then_some(connection)
    }

    /// How many connections were opened on that server.
    pub fn opened(&self, server: usize) -> usize {
        self.connections.iter().filter(|connection| connection.server == server).count()
    }

    /// The connections that were opened on that server before that time and reached their idle limit: the least and the
    /// greatest second of the director's clock at which their last packet can have come.
    pub fn last_packet(&self, server: usize, before: f64, clock: &Clock) -> Option<(i64, i64)> {
        let here = self
            .connections
            .iter()
            .filter(|connection| connection.server == server && connection.removed.is_none());
        let here = here.filter(|connection| connection.opened.handed < before);
        let last = here
            .map(|connection| connection.last)
            .max_by(|a, b| a.written.total_cmp(&b.written))?;
        Some(clock.seconds(last.handed, last.written))
    }

    /// How many connections on that server were ended by an RST.
    pub fn resets(&self, server: usize) -> usize {
        self.connections
            .iter()
            .filter(|connection| {
                connection.server == server && connection.was_removed_by(Removal::Reset)
            })
            .count()
    }

    /// A packet that the director was handed between these times and never wrote, though its connection was not ended before.
    pub fn lost(&self, meanwhile: &RangeInclusive<f64>) -> Option<&Packet> {
        let mut refused = self.refused.iter().filter(|packet| meanwhile.contains(&packet.time));
        refused.find(|packet| !self.is_after_its_end(packet))
    }

    /// Whether the packet's connection, by when it was handed over, had been ended.
    fn is_after_its_end(&self, packet: &Packet) -> bool {
        let before = |connection: &&Connection| {
            connection.client == packet.client() && connection.opened.handed <= packet.time
        };
        let newest = self.connections.iter().rfind(before);
        newest
            .and_then(|connection| connection.removed)
            .is_some_and(|(by, moment)| by != Removal::Renewal && moment.handed <= packet.time)
    }

    /// How many connections were opened from a port that came back while its finished connection still counted.
    pub fn renewals(&self) -> usize {
        let renewed = |connection: &&Connection| connection.was_removed_by(Removal::Renewal);
        self.connections.iter().filter(renewed).count()
    }

    /// Holds every count of every look against the book. Tells for how many of them only one number was right.
    pub fn check(&self, looks: &[Look], clock: &Clock) -> Result<usize, Failure> {
        let mut exact = 0;
        for look in looks {
            for row in &look.status.rows {
                let (least, most) =
                    self.bounds(&look.reading(), clock, |server| server == row.number);
                let (count, at) = (row.connections, look.status.clock);
                let words = format!(
                    "replica {} reads {count} at clock {at}, and the packets say ",
                    row.number
                );
                ensure(
                    count >= least,
                    format!("{words}at least {least}: {}", self.told(row.number, clock)),
                )?;
                ensure(
                    count <= most,
                    format!("{words}at most {most}: {}", self.told(row.number, clock)),
                )?;
                exact += usize::from(least == most);
            }
        }
        Ok(exact)
    }

    /// The least and the greatest number that the connections of these servers can have been when the clock was read so.
    pub fn bounds(
        &self,
        reading: &Reading,
        clock: &Clock,
        is_meant: impl Fn(usize) -> bool,
    ) -> (u32, u32) {
        let here = self.connections.iter().filter(|connection| is_meant(connection.server));
        here.map(|connection| connection.bounds(reading, clock))
            .fold((0, 0), |(a, b), (c, d)| (a + c, b + d))
    }

    /// The connections of a server that were seen last, for a failure's words.
    fn told(&self, server: usize, clock: &Clock) -> String {
        let here = self.connections.iter().filter(|connection| connection.server == server);
        let mut here: Vec<&Connection> = here.collect();
        here.sort_by(|a, b| b.last.written.total_cmp(&a.last.written));
        let told = here.iter().take(TOLD).map(|connection| connection.told(clock));
        told.collect::<Vec<_>>().join("; ")
    }
}
