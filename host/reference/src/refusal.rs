//! "Numbers given on refusal", each named after its row in the table.

pub const SIZES: u8 = 1;
pub const SERVICE: u8 = 2;
pub const SERVER_ENDPOINT: u8 = 3;
pub const SERVERS_EQUAL: u8 = 4;
pub const NO_SERVER: u8 = 5;
pub const HEADER: u8 = 6;
pub const FRAGMENT: u8 = 7;
pub const PROTOCOL: u8 = 8;
pub const SEGMENT: u8 = 9;
pub const NOT_OURS: u8 = 10;
pub const CLOCK: u8 = 11;
pub const NO_CONNECTION: u8 = 12;
pub const TABLE_FULL: u8 = 13;
pub const NO_WEIGHT: u8 = 14;
pub const UNSOUND: u8 = 15;
pub const HEADER_CHECKSUM: u8 = 20;

/// All of them, lowest first. 16 to 19 are given by nothing.
pub const ALL: [u8; 16] = [
    SIZES,
    SERVICE,
    SERVER_ENDPOINT,
    SERVERS_EQUAL,
    NO_SERVER,
    HEADER,
    FRAGMENT,
    PROTOCOL,
    SEGMENT,
    NOT_OURS,
    CLOCK,
    NO_CONNECTION,
    TABLE_FULL,
    NO_WEIGHT,
    UNSOUND,
    HEADER_CHECKSUM,
];

/// "Packets 15, 6, 20, 7 to 11, then 12 to 14": what a packet may be refused with before its clock is looked at.
pub const BEFORE_CLOCK: [u8; 7] =
    [UNSOUND, HEADER, HEADER_CHECKSUM, FRAGMENT, PROTOCOL, SEGMENT, NOT_OURS];

/// "After 11 is passed, the clock is stored and idle connections are removed; 12, 13 and 14 keep that and change nothing
/// else." The others change nothing at all.
pub fn keeps_clock(number: u8) -> bool {
    matches!(number, NO_CONNECTION | TABLE_FULL | NO_WEIGHT)
}
