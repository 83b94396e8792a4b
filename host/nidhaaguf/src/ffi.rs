//! The C library's calls (include/nidhaaguf.h), and all the unsafe code there is.
//!
//! The library asks two things of its caller: that what is lent (row, packets, records, buffer, counters) is really there
//! for the length of the call, and that no two of them overlap. References promise both, so the calls here are safe with
//! any values.

use crate::structs::*;
use std::os::fd::{AsRawFd, BorrowedFd};

// size_t is usize on the one machine that the library is for
#[cfg(not(all(target_arch = "x86_64", target_os = "linux")))]
compile_error!("the library is for x86-64 Linux");

extern "C" {
    fn nidhaaguf_set_up(
        state: State,
        service: Service,
        servers: Servers,
        row: *mut u32,
        row_length: usize,
    ) -> Answer;
    fn nidhaaguf_set_weight(
        state: State,
        row: *const u32,
        row_length: usize,
        number: u32,
        weight: u16,
    ) -> Answer;
    fn nidhaaguf_count(state: State, row: *const u32, row_length: usize, number: u32) -> Answer;
    fn nidhaaguf_tick(state: State, row: *mut u32, row_length: usize, clock: u32) -> Answer;
    fn nidhaaguf_inbound(
        state: State,
        row: *mut u32,
        row_length: usize,
        packet: *mut u8,
        packet_length: usize,
        clock: u32,
    ) -> Answer;
    fn nidhaaguf_outbound(
        state: State,
        row: *mut u32,
        row_length: usize,
        packet: *mut u8,
        packet_length: usize,
        clock: u32,
    ) -> Answer;
    fn nidhaaguf_burst(
        state: State,
        row: *mut u32,
        row_length: usize,
        packets: *mut u8,
        packets_length: usize,
        records: *mut u32,
        records_length: usize,
        clock: u32,
    ) -> Answer;
    fn nidhaaguf_serve(
        descriptor: i32,
        state: State,
        row: *mut u32,
        row_length: usize,
        buffer: *mut u8,
        buffer_length: usize,
        records: *mut u32,
        records_length: usize,
        counters: *mut [u64; COUNTERS],
        clock: u32,
        most: u32,
        stop: u32,
    ) -> Served;
    fn __errno_location() -> *mut i32;
}

/// Sets up a service; `state` is only what a refusal gives back. Refusals 1 to 4.
pub fn set_up(state: State, service: Service, servers: Servers, row: &mut [u32]) -> Answer {
    // SAFETY: the row is lent whole and alone for the call; all values are plain numbers, of which any are taken.
    unsafe { nidhaaguf_set_up(state, service, servers, row.as_mut_ptr(), row.len()) }
}

/// Sets a server's weight. Refusals 15, 5.
pub fn set_weight(state: State, row: &[u32], number: u32, weight: u16) -> Answer {
    // SAFETY: the row is lent for reading for the call; any values are taken.
    unsafe { nidhaaguf_set_weight(state, row.as_ptr(), row.len(), number, weight) }
}

/// Tells a server's count. Refusals 15, 5.
pub fn count(state: State, row: &[u32], number: u32) -> Answer {
    // SAFETY: as for the weight.
    unsafe { nidhaaguf_count(state, row.as_ptr(), row.len(), number) }
}

/// Moves the clock and removes idle connections. Refusals 15, 11.
pub fn tick(state: State, row: &mut [u32], clock: u32) -> Answer {
    // SAFETY: the row is lent whole and alone for the call; any values are taken.
    unsafe { nidhaaguf_tick(state, row.as_mut_ptr(), row.len(), clock) }
}

/// Takes a packet from a client. Refusals 15, 6, 20, 7 to 14.
pub fn inbound(state: State, row: &mut [u32], packet: &mut [u8], clock: u32) -> Answer {
    let (bytes, length) = (packet.as_mut_ptr(), packet.len());
    // SAFETY: two exclusive references can't overlap, and both are lent whole for the call; any values are taken.
    unsafe { nidhaaguf_inbound(state, row.as_mut_ptr(), row.len(), bytes, length, clock) }
}

/// Takes a packet from a server. Refusals 15, 6, 20, 7 to 12.
pub fn outbound(state: State, row: &mut [u32], packet: &mut [u8], clock: u32) -> Answer {
    let (bytes, length) = (packet.as_mut_ptr(), packet.len());
    // SAFETY: as for inbound.
    unsafe { nidhaaguf_outbound(state, row.as_mut_ptr(), row.len(), bytes, length, clock) }
}

/// A tick at `clock`, then the packets, each as inbound or outbound by its destination. Packet k has `records[4 * k]`
/// bytes, at most [`PLACE`](crate::raw::PLACE), from byte `PLACE` * k on; the three words after its length become its
/// answer. The answer given back is the tick's, with the state after the packets. Refusals 15, 11.
pub fn burst(
    state: State,
    row: &mut [u32],
    packets: &mut [u8],
    records: &mut [u32],
    clock: u32,
) -> Answer {
    let (words, word_count) = (row.as_mut_ptr(), row.len());
    let (bytes, byte_count) = (packets.as_mut_ptr(), packets.len());
    let (answers, answer_count) = (records.as_mut_ptr(), records.len());
    // SAFETY: three exclusive references, of which no two can overlap, lent whole for the call; any values are taken.
    unsafe {
        nidhaaguf_burst(state, words, word_count, bytes, byte_count, answers, answer_count, clock)
    }
}

/// What a serve is lent: all of it is as the serve left it on return.
#[derive(Debug)]
pub struct LentToServe<'a> {
    pub row: &'a mut [u32],
    /// Where the packets are read, one behind the other.
    pub buffer: &'a mut [u8],
    /// Five words for each packet: see [`Traced`](crate::raw::Traced).
    pub records: &'a mut [u32],
    /// Place 23 * way + i, way 0 inbound and 1 outbound; i = 0 opened, 1 kept, 2 ended, 2 + n refusal n.
    pub counters: &'a mut [u64; COUNTERS],
}

/// A tick at `clock`, then packets that are read from `descriptor`, each as inbound or outbound by its destination, and
/// written back to it where they are accepted: until a read gives nothing, `most` are taken, a record or
/// [`LONGEST`](crate::raw::LONGEST) bytes of the buffer are missing for the next, or one is refused with the number `stop`.
/// Where a read failed, the error is `std::io::Error::last_os_error()`. Refusals 15, 11.
pub fn serve(
    descriptor: BorrowedFd<'_>,
    state: State,
    lent: LentToServe<'_>,
    clock: u32,
    most: u32,
    stop: u32,
) -> Served {
    let LentToServe { row, buffer, records, counters } = lent;
    let number = descriptor.as_raw_fd();
    // SAFETY: as for burst; the descriptor is open for the call.
    unsafe {
        nidhaaguf_serve(
            number,
            state,
            row.as_mut_ptr(),
            row.len(),
            buffer.as_mut_ptr(),
            buffer.len(),
            records.as_mut_ptr(),
            records.len(),
            counters,
            clock,
            most,
            stop,
        )
    }
}

/// Records as the words that a burst takes.
pub fn words(records: &mut [Record]) -> &mut [u32] {
    let length = records.len() * WORDS_PER_RECORD;
    // SAFETY: a record is four words without padding (asserted beside it), any of which may have any value.
    unsafe { std::slice::from_raw_parts_mut(records.as_mut_ptr().cast(), length) }
}

/// Records as the words that a serve takes.
pub fn traced_words(records: &mut [Traced]) -> &mut [u32] {
    let length = records.len() * WORDS_PER_TRACED;
    // SAFETY: likewise, of five words.
    unsafe { std::slice::from_raw_parts_mut(records.as_mut_ptr().cast(), length) }
}

/// Sets errno to 0, so that a call that fails later can be told from one that doesn't.
pub fn clear_errno() {
    // SAFETY: the C library's place for this thread's errno, which is always there.
    unsafe { *__errno_location() = 0 }
}
