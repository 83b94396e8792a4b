//! A director as bytes: what is written to the state file, and sent at a take-over.
//!
//! First a mark and the layout's number, last a checksum of all before it; both stay where they are in every layout. Numbers are
//! written with the lowest byte first. The state's largest weight and divisor are in no layout: they follow from the weights, so
//! who reads works them out, and programs with and without them hand directors to each other.

mod reader;
mod writer;

use super::snapshot::Snapshot;
use crate::book::Ending;
use nidhaaguf::raw::{COUNTERS, PLACES, WORDS_PER_SLOT};
use reader::Reader;
use writer::Writer;

/// The layout's number: this one is written, and no other.
pub const LAYOUT: u32 = 3;

// another number here is another layout: it needs another number too
const _: () = assert!(COUNTERS == 46 && PLACES == 64 && WORDS_PER_SLOT == 5 && LAYOUT == 3);
const _: () = assert!(Ending::ALL.len() == 6 && LAYOUT == 3);

/// A layout that is read, and what it has.
#[derive(Clone, Copy)]
struct Form {
    number: u32,
    /// Counters of packets for a way. A counter has its place by its answer: those that a layout lacks are the last of each way,
    /// and begin at 0. Under 6 layout 1 has the wrong header checksums too.
    counters_a_way: usize,
    /// Whether the director's name, its book, what was said of its servers, and the counts of resets and IPv6 follow.
    has_book: bool,
}

const COUNTERS_A_WAY: usize = COUNTERS / 2;
const READ: [Form; 3] = [
    Form { number: 1, counters_a_way: 18, has_book: false },
    Form { number: 2, counters_a_way: COUNTERS_A_WAY, has_book: false },
    Form { number: LAYOUT, counters_a_way: COUNTERS_A_WAY, has_book: true },
];

/// The layouts that are read but not written.
pub fn earlier() -> impl Iterator<Item = u32> {
    READ.into_iter().map(|form| form.number).filter(|&number| number != LAYOUT)
}

/// More bytes than the largest director has.
pub const MOST_BYTES: usize = 150_000;

const MARK: [u8; 16] = *b"nidhaaguf state\n";
const CHECKSUM_BYTES: usize = 4;

/// A director's bytes.
pub fn bytes_of(snapshot: &Snapshot) -> Vec<u8> {
    let mut out = Writer(MARK.to_vec());
    out.u32(LAYOUT);
    out.snapshot(snapshot);
    let checksum = crc32(&out.0);
    out.u32(checksum);
    out.0
}

/// The director that has these bytes. An error says why there is none.
pub fn read(bytes: &[u8]) -> Result<Snapshot, String> {
    if bytes.get(..MARK.len()) != Some(&MARK[..]) {
        return Err("it is no director's state".into());
    }
    let cut = || "it is cut".to_string();
    let (body, checksum) = bytes.split_last_chunk::<CHECKSUM_BYTES>().ok_or_else(cut)?;
    let (found, said) = (crc32(body), u32::from_le_bytes(*checksum));
    if found != said {
        return Err(format!(
            "it is cut or damaged: its checksum is {found:08x}, and it says {said:08x}"
        ));
    }
    let mut input = Reader(body.get(MARK.len()..).ok_or_else(cut)?);
    let layout = input.u32().ok_or_else(cut)?;
    let form = READ.into_iter().find(|form| form.number == layout).ok_or_else(|| {
        let [first, second, last] = READ.map(|form| form.number);
        format!("its layout is {layout}, and this program reads {first}, {second} and {last}")
    })?;
    let snapshot = input.snapshot(form).ok_or_else(cut)?;
    match input.0.len() {
        0 => Ok(snapshot),
        left => Err(format!("it has {left} bytes too many")),
    }
}

/// The checksum of Ethernet, gzip and PNG (CRC-32): it finds every damage of one or two bits, and of any 32 in a row.
pub fn crc32(bytes: &[u8]) -> u32 {
    let step = |crc: u32, byte: &u8| CRC_TABLE[(crc as u8 ^ byte) as usize] ^ (crc >> 8);
    !bytes.iter().fold(!0, step)
}

const CRC_TABLE: [u32; 256] = crc_table();

const fn crc_table() -> [u32; 256] {
    let mut table = [0; 256];
    let mut at = 0;
    while at < 256 * 8 {
        // a table's entry is its number, shifted out bit by bit
        let before = if at % 8 == 0 { (at / 8) as u32 } else { table[at / 8] };
        table[at / 8] = (before >> 1) ^ (0xEDB8_8320 * (before & 1));
        at += 1;
    }
    table
}
