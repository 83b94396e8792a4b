//! The connection table: a lent row of 32-bit words, five to a slot.

use crate::data::Client;

/// "five to a slot: phase, client address, client port, server number, last-seen second"
pub const WORDS: usize = 5;
/// "The row has 5 to 20,480 words"
pub const LONGEST: usize = 20_480;

/// A slot's number, never a server's.
#[derive(Clone, Copy, Debug, PartialEq, Eq)]
pub struct SlotNumber(pub usize);

/// The five words of a slot as they stand.
#[derive(Clone, Copy, Debug, PartialEq, Eq)]
pub struct Slot {
    pub phase: u32,
    pub address: u32,
    pub port: u32,
    pub server: u32,
    pub last_seen: u32,
}

/// "A free slot is five zeros."
pub const FREE: Slot = Slot { phase: 0, address: 0, port: 0, server: 0, last_seen: 0 };

impl Slot {
    /// Phase 0 is no phase: in a sound row such a slot is all zeros.
    pub fn is_used(&self) -> bool {
        self.phase != 0
    }

    pub fn is_of(&self, client: Client) -> bool {
        self.is_used() && self.address == client.address && self.port == u32::from(client.port)
    }
}

/// "5 to 20,480 words, a multiple of five"
pub fn length_fits(length: usize) -> bool {
    (WORDS..=LONGEST).contains(&length) && length.is_multiple_of(WORDS)
}

/// The numbers of all slots, lowest first.
pub fn numbers(row: &[u32]) -> impl Iterator<Item = SlotNumber> {
    (0..row.len() / WORDS).map(SlotNumber)
}

pub fn read(row: &[u32], number: SlotNumber) -> Slot {
    let first = number.0 * WORDS;
    Slot {
        phase: row[first],
        address: row[first + 1],
        port: row[first + 2],
        server: row[first + 3],
        last_seen: row[first + 4],
    }
}

pub fn write(row: &mut [u32], number: SlotNumber, slot: Slot) {
    let first = number.0 * WORDS;
    row[first] = slot.phase;
    row[first + 1] = slot.address;
    row[first + 2] = slot.port;
    row[first + 3] = slot.server;
    row[first + 4] = slot.last_seen;
}

/// "Two used slots with one client don't break soundness: the lower slot answers."
pub fn find(row: &[u32], client: Client) -> Option<SlotNumber> {
    numbers(row).find(|&number| read(row, number).is_of(client))
}

/// "The lowest free slot is taken."
pub fn lowest_free(row: &[u32]) -> Option<SlotNumber> {
    numbers(row).find(|&number| !read(row, number).is_used())
}
