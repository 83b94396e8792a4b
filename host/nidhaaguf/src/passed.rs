//! What became of a packet.

use crate::Refusal;

/// What an accepted packet did to its connection.
#[derive(Clone, Copy, Debug, PartialEq, Eq, Hash)]
pub enum Change {
    /// It opened the connection.
    Opened,
    /// It is an ordinary packet of the connection, a TCP FIN included.
    Kept,
    /// It is a TCP RST, and the connection is gone.
    Ended,
}

/// An accepted packet: it has been rewritten and is to be sent on.
#[derive(Clone, Copy, Debug, PartialEq, Eq, Hash)]
pub struct Passed {
    /// The number of the connection's server.
    pub server: usize,
    pub change: Change,
}

/// What the library's numbers tell of a call: that it was accepted, or why not.
pub(crate) fn verdict(refusal: u32) -> Result<(), Refusal> {
    match (refusal, Refusal::of_number(refusal)) {
        (0, _) => Ok(()),
        (_, Some(refusal)) => Err(refusal),
        (number, None) => panic!("the library gave the unknown refusal {number}"),
    }
}

/// What the library's numbers tell of a packet.
pub(crate) fn packet_verdict(refusal: u32, server: u32, change: u32) -> Result<Passed, Refusal> {
    verdict(refusal)?;
    let change = match change {
        1 => Change::Opened,
        2 => Change::Kept,
        3 => Change::Ended,
        number => panic!("the library gave the unknown change {number}"),
    };
    Ok(Passed { server: server as usize, change })
}
