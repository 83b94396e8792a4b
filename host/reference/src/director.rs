//! The six calls.

use crate::connection;
use crate::data::*;
use crate::header::{self, Header};
use crate::refusal;
use crate::rewrite;
use crate::scheduler;
use crate::segment::{self, Flags, Segment};
use crate::settings;
use crate::soundness::is_sound;
use crate::table::{self, Slot, SlotNumber};
use crate::weights;

/// Setup: the present state isn't judged; refused, it stays as it was.
pub fn set_up(
    state: &mut State,
    service: Service,
    servers: [Server; PLACES],
    row: &mut [u32],
) -> Answer {
    if let Err(number) = settings::judge(&service, &servers, row.len()) {
        return Answer::Refused(number);
    }
    // "zeroes the row, all counts and the clock, and puts the walk at its start"
    row.fill(0);
    let mut kept = [Server::default(); PLACES];
    for (place, given) in kept.iter_mut().zip(servers).take(service.servers as usize) {
        *place = Server { count: 0, ..given };
    }
    let walk = scheduler::start(&service);
    *state = State { service, servers: kept, walk, clock: 0, ..State::new() };
    weights::make_true(state);
    Answer::Done
}

/// Weight: order 15, 5. "an equal one changes nothing"
pub fn set_weight(state: &mut State, row: &[u32], number: u32, weight: u16) -> Answer {
    let ServerNumber(place) = match existing_server(state, row, number) {
        Ok(server) => server,
        Err(refused) => return Answer::Refused(refused),
    };
    if state.servers[place].weight != weight {
        state.servers[place].weight = weight;
        weights::make_true(state);
        state.walk = scheduler::after_weight_change(&state.service, state.walk);
    }
    Answer::Done
}

/// Count: order 15, 5. "it tells the count as of the latest accepted one" (clock)
pub fn count(state: &State, row: &[u32], number: u32) -> Answer {
    match existing_server(state, row, number) {
        Ok(ServerNumber(place)) => Answer::Number(state.servers[place].count),
        Err(refused) => Answer::Refused(refused),
    }
}

/// Tick: order 15, 11.
pub fn tick(state: &mut State, row: &mut [u32], clock: u32) -> Answer {
    let removed = require_sound(state, row).and_then(|()| accept_clock(state, row, clock));
    match removed {
        Ok(removed) => Answer::Number(removed),
        Err(refused) => Answer::Refused(refused),
    }
}

/// A packet from a client.
pub fn inbound(state: &mut State, row: &mut [u32], packet: &mut [u8], clock: u32) -> Answer {
    packet_answer(take_inbound(state, row, packet, clock))
}

/// A packet from a server.
pub fn outbound(state: &mut State, row: &mut [u32], packet: &mut [u8], clock: u32) -> Answer {
    packet_answer(take_outbound(state, row, packet, clock))
}

type Taken = Result<(ServerNumber, Change), u8>;

fn packet_answer(taken: Taken) -> Answer {
    match taken {
        Ok((ServerNumber(number), change)) => Answer::Passed(number as u32, change),
        Err(refused) => Answer::Refused(refused),
    }
}

/// Order: 15, 6, 20, 7 to 11, then 12 to 14.
fn take_inbound(state: &mut State, row: &mut [u32], packet: &mut [u8], clock: u32) -> Taken {
    require_sound(state, row)?;
    let protocol = state.service.protocol;
    let (header, segment) = read_packet(packet, protocol)?;
    // 10: "inbound: destination is not the virtual address and port"
    if (header.destination, segment.destination) != (state.service.address, state.service.port) {
        return Err(refusal::NOT_OURS);
    }
    accept_clock(state, row, clock)?;
    let client = Client { address: header.source, port: segment.source };
    let flags = segment.flags;
    let (server, change) = match table::find(row, client) {
        Some(slot) if connection::renews(table::read(row, slot).phase, flags) => {
            renew(state, row, slot, client)?
        }
        Some(slot) => meet(state, row, slot, flags, connection::phase_after_client),
        None if connection::opens(flags) => open(state, row, client)?,
        None => return Err(refusal::NO_CONNECTION),
    };
    let picked = state.servers[server.0];
    rewrite::destination(packet, header, protocol, (picked.address, picked.port));
    Ok((server, change))
}

/// Order: 15, 6, 20, 7 to 11, then 12. "Outbound packets open nothing."
fn take_outbound(state: &mut State, row: &mut [u32], packet: &mut [u8], clock: u32) -> Taken {
    require_sound(state, row)?;
    let protocol = state.service.protocol;
    let (header, segment) = read_packet(packet, protocol)?;
    // 10: "Outbound: source is no server's address and port"
    let sender = server_at(state, header.source, segment.source).ok_or(refusal::NOT_OURS)?;
    accept_clock(state, row, clock)?;
    let client = Client { address: header.destination, port: segment.destination };
    // "belongs to it only if the source is its server; otherwise 12"
    let slot = table::find(row, client)
        .filter(|&slot| table::read(row, slot).server as usize == sender.0)
        .ok_or(refusal::NO_CONNECTION)?;
    let (server, change) = meet(state, row, slot, segment.flags, connection::phase_after_server);
    let virtual_end = (state.service.address, state.service.port);
    rewrite::source(packet, header, protocol, virtual_end);
    Ok((server, change))
}

fn require_sound(state: &State, row: &[u32]) -> Result<(), u8> {
    match is_sound(state, row) {
        true => Ok(()),
        false => Err(refusal::UNSOUND),
    }
}

/// 15, then 5: "no server of that number".
fn existing_server(state: &State, row: &[u32], number: u32) -> Result<ServerNumber, u8> {
    require_sound(state, row)?;
    match number < state.service.servers {
        true => Ok(ServerNumber(number as usize)),
        false => Err(refusal::NO_SERVER),
    }
}

/// Refusals 6, 20, 7 to 9. The part from the IP header's own length is handed to the segment reader.
fn read_packet(packet: &[u8], protocol: u8) -> Result<(Header, Segment), u8> {
    let header = header::read(packet, protocol)?;
    let segment = segment::read(&packet[header.length..header.total], protocol)?;
    Ok((header, segment))
}

fn server_at(state: &State, address: u32, port: u16) -> Option<ServerNumber> {
    let mut used = state.used_servers().iter();
    used.position(|server| server.address == address && server.port == port).map(ServerNumber)
}

/// 11: "After 11 is passed, the clock is stored and idle connections are removed."
fn accept_clock(state: &mut State, row: &mut [u32], clock: u32) -> Result<u32, u8> {
    if clock < state.clock {
        return Err(refusal::CLOCK);
    }
    state.clock = clock;
    Ok(connection::remove_idle(state, row))
}

/// A packet of a present connection: "RST is looked at first".
fn meet(
    state: &mut State,
    row: &mut [u32],
    number: SlotNumber,
    flags: Option<Flags>,
    phase_after: fn(u32, Option<Flags>) -> u32,
) -> (ServerNumber, Change) {
    let slot = table::read(row, number);
    let server = ServerNumber(slot.server as usize);
    if connection::has_rst(flags) {
        connection::take_off(state, row, number);
        return (server, Change::Ended);
    }
    // "Every accepted packet sets last-seen."
    let seen = Slot { phase: phase_after(slot.phase, flags), last_seen: state.clock, ..slot };
    table::write(row, number, seen);
    (server, Change::Kept)
}

/// A packet that opens: 13, 14 in that order, or the opening. A refusal changes nothing.
fn open(state: &mut State, row: &mut [u32], client: Client) -> Taken {
    let free = table::lowest_free(row).ok_or(refusal::TABLE_FULL)?;
    // 14: "every weight is 0", as the largest is; "decided before the walk moves"
    if state.largest_weight == 0 {
        return Err(refusal::NO_WEIGHT);
    }
    let (server, walk) = scheduler::pick(state);
    let opened = Slot {
        phase: connection::NONE_FINISHED,
        address: client.address,
        port: u32::from(client.port),
        server: server.0 as u32,
        last_seen: state.clock,
    };
    connection::put(state, row, free, opened);
    // "the walk moves in an opening only"
    state.walk = walk;
    Ok((server, Change::Opened))
}

/// A packet that "ends [the old one] and opens a new one in the same call": "The pick sees the count
/// after the old one is taken off, and the old slot counts as free."
fn renew(state: &mut State, row: &mut [u32], number: SlotNumber, client: Client) -> Taken {
    let old = connection::take_off(state, row, number);
    let taken = open(state, row, client);
    if taken.is_err() {
        // "If all weights are 0 the answer is 14 and the old connection stays as it was."
        connection::put(state, row, number, old);
    }
    taken
}
