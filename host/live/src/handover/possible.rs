//! What a director can have: what is handed on beside the library's state must fit it, and itself.

use super::snapshot::Snapshot;
use crate::book::{Book, Ending, Entry, ServerCounts};
use crate::counters::{Counters, WAYS};
use crate::instance::Assigned;
use crate::log::position::Position;
use nidhaaguf::{Change, Connection, Director, Refusal, Way};
use std::collections::HashSet;

/// More than any count comes to: a thousand million a second for a year.
const MOST_COUNT: u64 = 1 << 55;

/// Counts go on by adding, and must be such that they can have come by it.
pub fn counts(snapshot: &Snapshot) -> Result<(), String> {
    let Position { lines, lost, told } = &snapshot.log;
    let Counters { packets, write_failures, idle_removed, resets_sent, resets_unsent, .. } =
        &snapshot.counters;
    let single = [
        write_failures,
        idle_removed,
        resets_sent,
        resets_unsent,
        &snapshot.weights_set,
        lines,
        lost,
    ];
    let by_server = snapshot
        .servers
        .iter()
        .flat_map(|ServerCounts { opened, ended, early }| ended.iter().chain([opened, early]));
    let mut all = packets.words().iter().chain(single).chain(by_server);
    let full = packets.refused(Way::Inbound, Refusal::TableFull);
    let is_told = told.refused_before <= told.refused && told.refused <= full;
    // before they are added up
    let are_below = all.all(|&count| count < MOST_COUNT);
    match is_told && are_below && are_parts(&snapshot.counters, &snapshot.servers) {
        true => Ok(()),
        false => Err("its counts are none that a director can have".into()),
    }
}

/// What is counted here of the library's answers is a part of them.
fn are_parts(counters: &Counters, servers: &[ServerCounts]) -> bool {
    let Counters { packets, idle_removed, resets_sent, resets_unsent, ipv6, .. } = counters;
    let refused = |refusal| WAYS.map(|(way, _)| packets.refused(way, refusal));
    let sum = |count: fn(&ServerCounts) -> u64| servers.iter().map(count).sum::<u64>();
    let malformed = refused(Refusal::MalformedHeader);
    ipv6.iter().zip(malformed).all(|(ipv6, malformed)| *ipv6 <= malformed)
        && resets_sent + resets_unsent <= refused(Refusal::NoConnection).iter().sum()
        && sum(|counts| counts.opened) <= packets.accepted(Way::Inbound, Change::Opened)
        && sum(|counts| counts.ended_by(Ending::Idle)) <= *idle_removed
        && servers.iter().all(|counts| counts.early <= counts.ended_by(Ending::Server))
}

/// The library's weights are those that are in force by what was said of the servers.
pub fn weights(assigned: &[Assigned], director: &Director) -> Result<(), String> {
    let in_force = assigned.iter().map(|assigned| assigned.in_force());
    let weights = director.settings().servers.into_iter().map(|server| server.weight);
    match weights.eq(in_force) {
        true => Ok(()),
        false => Err("its weights are not those that were set".into()),
    }
}

/// The book of a table: an entry for each connection, of a client that has no other.
pub fn book(
    entries: &[u64],
    servers: Vec<ServerCounts>,
    director: &Director,
) -> Result<Book, String> {
    let (protocol, connections) = (director.settings().protocol, director.connections());
    let connections: Vec<_> = connections.collect();
    let entry = |(connection, word): (&Connection, &u64)| {
        Some((connection.client, Entry::of_word(*word, connection, protocol)?))
    };
    let found: Option<Vec<_>> = connections.iter().zip(entries).map(entry).collect();
    let clients: HashSet<_> = connections.iter().map(|connection| connection.client).collect();
    match found.filter(|_| [entries.len(), clients.len()] == [connections.len(); 2]) {
        Some(found) => Ok(Book::of(protocol, servers, found)),
        None => Err("its book is not that of its connections".into()),
    }
}
