//! Why a call was refused.

use std::error::Error;
use std::fmt;

/// Why a call was refused.
///
/// A refused call changes nothing, unless its refusal [keeps the clock](Refusal::keeps_clock). A refused packet is always
/// as it was.
///
/// ```
/// use nidhaaguf::Refusal;
///
/// assert_eq!(Refusal::TableFull.number(), 13);
/// assert_eq!(Refusal::of_number(13), Some(Refusal::TableFull));
/// assert_eq!(Refusal::TableFull.to_string(), "the connection table is full (13)");
/// ```
#[derive(Clone, Copy, Debug, PartialEq, Eq, Hash)]
pub enum Refusal {
    /// Setup: not 1 to 64 servers, or not 1 to 4,096 slots.
    Sizes = 1,
    /// Setup: the virtual address or port is 0 (or, in the raw layer, protocol or scheduler unknown).
    Service = 2,
    /// Setup: a server's address or port is 0.
    ServerUnset = 3,
    /// Setup: two servers have the same address and port.
    ServerRepeated = 4,
    /// Weight, count: no server has that number.
    NoServer = 5,
    /// Packet: not an IPv4 header whose version and lengths are right.
    MalformedHeader = 6,
    /// Packet: a fragment.
    Fragment = 7,
    /// Packet: its protocol isn't the service's.
    OtherProtocol = 8,
    /// Packet: the lengths of its TCP or UDP header are wrong.
    MalformedTransport = 9,
    /// Packet: inbound, it isn't for the virtual address and port; outbound, it isn't from a server.
    OtherEndpoint = 10,
    /// Tick, packet: the clock is earlier than the latest accepted one.
    EarlierClock = 11,
    /// Packet: it belongs to no connection and opens none.
    NoConnection = 12,
    /// Packet: it would open a connection, and no slot is free.
    TableFull = 13,
    /// Packet: it would open a connection, and every server's weight is 0.
    NoWeight = 14,
    /// Raw layer only: state and row are not what the calls have made.
    Unsound = 15,
    /// Packet: the IPv4 header's checksum is not valid.
    BadChecksum = 20,
}

impl Refusal {
    /// All of them, lowest number first. 16 to 19 are none's.
    pub const ALL: [Refusal; 16] = [
        Refusal::Sizes,
        Refusal::Service,
        Refusal::ServerUnset,
        Refusal::ServerRepeated,
        Refusal::NoServer,
        Refusal::MalformedHeader,
        Refusal::Fragment,
        Refusal::OtherProtocol,
        Refusal::MalformedTransport,
        Refusal::OtherEndpoint,
        Refusal::EarlierClock,
        Refusal::NoConnection,
        Refusal::TableFull,
        Refusal::NoWeight,
        Refusal::Unsound,
        Refusal::BadChecksum,
    ];

    /// Its number in the rules.
    pub fn number(self) -> u32 {
        self as u32
    }

    /// The refusal of that number; None for 0 (accepted) and for numbers that none has.
    pub fn of_number(number: u32) -> Option<Refusal> {
        Refusal::ALL.into_iter().find(|refusal| refusal.number() == number)
    }

    /// Whether the refused call has taken the clock and removed the connections that are idle by it. With any other
    /// refusal it has changed nothing.
    pub fn keeps_clock(self) -> bool {
        match self {
            Refusal::NoConnection | Refusal::TableFull | Refusal::NoWeight => true,
            Refusal::Sizes
            | Refusal::Service
            | Refusal::ServerUnset
            | Refusal::ServerRepeated
            | Refusal::NoServer
            | Refusal::MalformedHeader
            | Refusal::Fragment
            | Refusal::OtherProtocol
            | Refusal::MalformedTransport
            | Refusal::OtherEndpoint
            | Refusal::EarlierClock
            | Refusal::Unsound
            | Refusal::BadChecksum => false,
        }
    }

    /// Whether packets may be refused so; the others are those of setup, weight and count.
    pub fn is_of_packets(self) -> bool {
        !matches!(
            self,
            Refusal::Sizes
                | Refusal::Service
                | Refusal::ServerUnset
                | Refusal::ServerRepeated
                | Refusal::NoServer
        )
    }

    /// Why, in words, without the number.
    pub fn words(self) -> &'static str {
        match self {
            Refusal::Sizes => "there must be 1 to 64 servers and 1 to 4,096 slots",
            Refusal::Service => "the virtual address and port must not be 0",
            Refusal::ServerUnset => "a server's address or port is 0",
            Refusal::ServerRepeated => "two servers have the same address and port",
            Refusal::NoServer => "there is no server of that number",
            Refusal::MalformedHeader => "the packet's IPv4 header is malformed",
            Refusal::Fragment => "the packet is a fragment",
            Refusal::OtherProtocol => "the packet is of another protocol",
            Refusal::MalformedTransport => "the packet's TCP or UDP header is malformed",
            Refusal::OtherEndpoint => {
                "the packet isn't for the service, or from one of its servers"
            }
            Refusal::EarlierClock => "the clock is earlier than the latest accepted one",
            Refusal::NoConnection => "the packet belongs to no connection and opens none",
            Refusal::TableFull => "the connection table is full",
            Refusal::NoWeight => "every server's weight is 0",
            Refusal::Unsound => "state and row don't fit together",
            Refusal::BadChecksum => "the packet's header checksum is not valid",
        }
    }
}

impl fmt::Display for Refusal {
    fn fmt(&self, out: &mut fmt::Formatter<'_>) -> fmt::Result {
        write!(out, "{} ({})", self.words(), self.number())
    }
}

impl Error for Refusal {}
