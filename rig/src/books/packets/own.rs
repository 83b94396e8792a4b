//! What the director writes without being handed it: resets by which it ends a connection, acknowledgments by which it then asks both ends
//! for their numbers, and resets in answer to packets that it refused. Each must have its reason.

use super::connection::{Connection, Moment, Removal};
use super::PacketBook;
use crate::books::looks::Clock;
use crate::lab::{ensure, fail, Failure};
use crate::links::packet::{server_of, Packet};

/// A connection is ended before its reset is written, by no more than this: the director answers commands in between.
const DELAY: f64 = 0.5;

impl PacketBook {
    /// Enters a packet that the director was not handed.
    pub(super) fn written_by_itself(&mut self, packet: &Packet) -> Result<(), Failure> {
        let is_right = match packet.flags.as_str() {
            "R" | "R." if self.answers(packet) => true,
            "R" => packet.sequence() == Some(0) && self.ends(packet),
            "." => packet.content.starts_with("ack 0, ") && self.asks(packet),
            _ => false,
        };
        ensure(is_right, format!("the director wrote what it wasn't handed: {packet}"))
    }

    /// Whether it is the reset that a refused packet gets, which wasn't answered yet (RFC 9293, 3.10.7.1).
    fn answers(&mut self, reset: &Packet) -> bool {
        let waiting = self.handed.entry(reset.client().into()).or_default();
        if let Some(place) = waiting.iter().position(|handed| is_reset_of(reset, handed)) {
            // it was refused, and so were those before it, which nothing was made of
            self.refused.extend(waiting.drain(..=place));
            return self.answered.insert(self.refused.len() - 1);
        }
        let unanswered = |place: &usize| !self.answered.contains(place);
        let mut places = (0..self.refused.len()).rev().filter(unanswered);
        let place = places.find(|&place| is_reset_of(reset, &self.refused[place]));
        place.is_some_and(|place| self.answered.insert(place))
    }

    /// Whether it is the client's reset to the server of its connection, which is there, and which it ends.
    fn ends(&mut self, reset: &Packet) -> bool {
        let moment = Moment { handed: reset.time - DELAY, written: reset.time };
        let newest = self.newest.get(reset.client()).map(|&place| &mut self.connections[place]);
        let there = |connection: &&mut Connection| {
            connection.removed.is_none() && Some(connection.server) == server_of(&reset.destination)
        };
        let Some(connection) = newest.filter(there) else { return false };
        connection.removed = Some((Removal::Director, moment));
        true
    }

    /// Whether the director has just ended the connection whose ends it asks.
    fn asks(&self, packet: &Packet) -> bool {
        let newest = self.newest.get(packet.client()).map(|&place| &self.connections[place]);
        newest.is_some_and(|connection| connection.was_removed_by(Removal::Director))
    }

    /// How many refused packets were answered with a reset.
    pub fn answered(&self) -> usize {
        self.answered.len()
    }

    /// The clients' ends of the connections that the director has ended by itself, in the order of their openings.
    pub fn ended_by_director(&self) -> Vec<&str> {
        let ended = self.connections.iter();
        let ended = ended.filter(|connection| connection.was_removed_by(Removal::Director));
        ended.map(|connection| connection.client.as_str()).collect()
    }

    /// Each connection that the director has ended must have been opening, for that many seconds of its clock and less than twice as many:
    /// it ends them in parts, between packets, on a machine that has other things to do. Gives how many there were.
    pub fn check_openings_ended_after(
        &self,
        seconds: u32,
        clock: &Clock,
    ) -> Result<usize, Failure> {
        let ended = self.connections.iter();
        let ended = ended.filter(|connection| connection.was_removed_by(Removal::Director));
        for connection in ended.clone() {
            let told = connection.told(clock);
            ensure(
                connection.is_opening,
                format!("it was open, and the director ended it: {told}"),
            )?;
            let (least, most) = connection.seconds_until_removed(clock);
            let wanted = i64::from(seconds);
            if most < wanted || least >= 2 * wanted {
                return fail(format!(
                    "it was ended after {least} to {most} s, not {seconds}: {told}"
                ));
            }
        }
        Ok(ended.count())
    }
}

/// Whether this is the reset that a host sends which doesn't know the connection of that packet.
fn is_reset_of(reset: &Packet, handed: &Packet) -> bool {
    if !reset.is_answer_to(handed) || handed.flags.contains('R') {
        return false;
    }
    if handed.flags.contains('.') {
        return reset.flags == "R" && reset.sequence() == handed.acknowledgment();
    }
    let counted = handed.flags.chars().filter(|flag| "SF".contains(*flag)).count() as u32;
    let next = handed.sequence().zip(handed.length());
    let next = next.map(|(sequence, length)| sequence.wrapping_add(length).wrapping_add(counted));
    reset.flags == "R." && reset.sequence() == Some(0) && reset.acknowledgment() == next
}
