//! What the configuration says of packets and connections that no server has asked for.

use std::fmt;

/// What becomes of a TCP packet of a connection that the director doesn't know.
#[derive(Clone, Copy, Debug, PartialEq, Eq)]
pub enum Unknown {
    /// Nothing.
    Drop,
    /// It is answered with a reset, at most so many in a second.
    Reset(u32),
}

impl fmt::Display for Unknown {
    fn fmt(&self, out: &mut fmt::Formatter<'_>) -> fmt::Result {
        match self {
            Unknown::Drop => write!(out, "drop"),
            Unknown::Reset(most) => write!(out, "reset {most}"),
        }
    }
}

/// What may be changed by a reload, beside the weights.
#[derive(Clone, Copy, Debug, PartialEq, Eq)]
pub struct Policy {
    /// What becomes of packets of unknown connections.
    pub unknown: Unknown,
    /// So many seconds a TCP connection may be opening; 0 for any time.
    pub opening_timeout: u32,
}

impl Policy {
    /// Such packets are dropped, and a connection may be opening for any time.
    pub const NONE: Policy = Policy { unknown: Unknown::Drop, opening_timeout: 0 };
}
