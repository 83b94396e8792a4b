//! What became of the packets. The library counts its answers itself, while it serves.

use nidhaaguf::{Change, Refusal, Way};
use std::fmt;

/// The ways, with their names in texts.
pub const WAYS: [(Way, &str); 2] = [(Way::Inbound, "inbound"), (Way::Outbound, "outbound")];

/// What an accepted packet may have done, with its name in texts.
pub const CHANGES: [(Change, &str); 3] =
    [(Change::Opened, "opened"), (Change::Kept, "kept"), (Change::Ended, "ended")];

/// Counts since the start.
#[derive(Clone, Debug, Default, PartialEq, Eq)]
pub struct Counters {
    /// The library's answers to packets.
    pub packets: nidhaaguf::Counters,
    /// Packets that the device didn't take.
    pub write_failures: u64,
    /// Connections removed because they were idle.
    pub idle_removed: u64,
    /// Resets that were sent for packets of unknown connections.
    pub resets_sent: u64,
    /// Resets that were not, since so many are sent in a second already.
    pub resets_unsent: u64,
    /// Packets of IPv6, by way. The library refuses them as malformed.
    pub ipv6: [u64; WAYS.len()],
}

impl Counters {
    /// Packets that were refused so, without those of IPv6.
    pub fn refused(&self, way: Way, refusal: Refusal) -> u64 {
        let refused = self.packets.refused(way, refusal);
        match refusal {
            Refusal::MalformedHeader => refused.saturating_sub(self.ipv6[way as usize]),
            _ => refused,
        }
    }
}

impl fmt::Display for Counters {
    /// One line: the counts that a log should keep.
    fn fmt(&self, out: &mut fmt::Formatter<'_>) -> fmt::Result {
        for (way, name) in WAYS {
            write!(out, "{name} ")?;
            for (change, name) in CHANGES {
                write!(out, "{} {name}, ", self.packets.accepted(way, change))?;
            }
            let refused = Refusal::ALL.map(|refusal| self.refused(way, refusal));
            write!(out, "{} refused; ", refused.iter().sum::<u64>())?;
        }
        write!(out, "{} of IPv6; ", self.ipv6.iter().sum::<u64>())?;
        write!(out, "{} removed as idle; ", self.idle_removed)?;
        write!(out, "{} not taken by the device", self.write_failures)
    }
}
