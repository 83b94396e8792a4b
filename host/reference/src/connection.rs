//! "Connections": phases, openings and idle limits.

use crate::data::*;
use crate::segment::Flags;
use crate::table::{self, Slot, SlotNumber, FREE};

/// "1 none has finished; 2 the client has sent FIN; 3 the server has; 4 both"
pub const NONE_FINISHED: u32 = 1;
pub const CLIENT_FINISHED: u32 = 2;
pub const SERVER_FINISHED: u32 = 3;
pub const BOTH_FINISHED: u32 = 4;

/// "phase 1 to 4 (UDP: 1)"
pub fn phase_in_range(protocol: u8, phase: u32) -> bool {
    match protocol {
        UDP => phase == NONE_FINISHED,
        _ => (NONE_FINISHED..=BOTH_FINISHED).contains(&phase),
    }
}

/// "TCP inbound with SYN set and ACK, RST, FIN clear; any UDP inbound"
pub fn opens(flags: Option<Flags>) -> bool {
    match flags {
        None => true,
        Some(f) => f.syn && !f.ack && !f.rst && !f.fin,
    }
}

/// "an inbound packet with SYN set and ACK, RST, FIN clear that meets a connection in phase 4".
/// A sound UDP connection is in phase 1.
pub fn renews(phase: u32, flags: Option<Flags>) -> bool {
    phase == BOTH_FINISHED && opens(flags)
}

/// "An inbound FIN moves 1 to 2 and 3 to 4"
pub fn phase_after_client(phase: u32, flags: Option<Flags>) -> u32 {
    match (has_fin(flags), phase) {
        (true, NONE_FINISHED) => CLIENT_FINISHED,
        (true, SERVER_FINISHED) => BOTH_FINISHED,
        _ => phase,
    }
}

/// "outbound moves 1 to 3 and 2 to 4"
pub fn phase_after_server(phase: u32, flags: Option<Flags>) -> u32 {
    match (has_fin(flags), phase) {
        (true, NONE_FINISHED) => SERVER_FINISHED,
        (true, CLIENT_FINISHED) => BOTH_FINISHED,
        _ => phase,
    }
}

fn has_fin(flags: Option<Flags>) -> bool {
    flags.is_some_and(|f| f.fin)
}

pub fn has_rst(flags: Option<Flags>) -> bool {
    flags.is_some_and(|f| f.rst)
}

/// "Idle limit: UDP 300 s, TCP phases 1 to 3 900 s, phase 4 120 s."
pub fn idle_limit(protocol: u8, phase: u32) -> u32 {
    match (protocol, phase) {
        (UDP, _) => 300,
        (_, BOTH_FINISHED) => 120,
        _ => 900,
    }
}

/// A connection put into a free slot, its server's count raised.
pub fn put(state: &mut State, row: &mut [u32], number: SlotNumber, slot: Slot) {
    table::write(row, number, slot);
    state.servers[slot.server as usize].count += 1;
}

/// "the slot zeroed, the count lowered"; what stood there.
pub fn take_off(state: &mut State, row: &mut [u32], number: SlotNumber) -> Slot {
    let slot = table::read(row, number);
    table::write(row, number, FREE);
    state.servers[slot.server as usize].count -= 1;
    slot
}

/// "Removed when clock less last-seen is at or above the limit." Counts on a sound state whose
/// clock is already the new one; answers how many were removed.
pub fn remove_idle(state: &mut State, row: &mut [u32]) -> u32 {
    let mut removed = 0;
    for number in table::numbers(row) {
        let slot = table::read(row, number);
        let limit = idle_limit(state.service.protocol, slot.phase);
        if slot.is_used() && state.clock - slot.last_seen >= limit {
            take_off(state, row, number);
            removed += 1;
        }
    }
    removed
}
