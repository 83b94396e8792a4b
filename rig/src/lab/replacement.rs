//! How a new process of the director follows another, and what it says then.

use std::fmt;

/// How a new process follows the one that runs.
#[derive(Clone, Copy, Debug, PartialEq, Eq)]
pub enum Replacement {
    /// It takes over from the other one, which serves until then.
    TakeOver,
    /// The other one ends first, and leaves its state in a file.
    Restart,
}

/// With what the new process goes on, by its own words.
#[derive(Clone, Copy, Debug, PartialEq, Eq)]
pub struct Handover {
    /// The connections of the other one.
    pub connections: u32,
    /// The director's clock at which these were counted.
    pub clock: u32,
}

impl Replacement {
    /// Reads the line `took over 170 connections at clock 4711, weights kept`; after a restart it begins with `resumed`.
    pub fn read(self, line: &str) -> Option<Handover> {
        let beginning = match self {
            Replacement::TakeOver => "took over ",
            Replacement::Restart => "resumed ",
        };
        let numbers = line.strip_prefix(beginning)?.strip_suffix(", weights kept")?;
        let (connections, clock) = numbers.split_once(" connections at clock ")?;
        Some(Handover { connections: connections.parse().ok()?, clock: clock.parse().ok()? })
    }
}

impl fmt::Display for Replacement {
    fn fmt(&self, out: &mut fmt::Formatter<'_>) -> fmt::Result {
        out.write_str(match self {
            Replacement::TakeOver => "take-over",
            Replacement::Restart => "restart",
        })
    }
}

#[cfg(test)]
mod tests {
    use super::*;

    #[test]
    fn the_line_is_read_and_anything_else_refused() {
        let took = "took over 170 connections at clock 4711, weights kept";
        let want = Some(Handover { connections: 170, clock: 4711 });
        assert_eq!(Replacement::TakeOver.read(took), want);
        assert_eq!(Replacement::Restart.read(&took.replace("took over", "resumed")), want);
        assert_eq!(Replacement::Restart.read(took), None);
        for (from, to) in [(", weights kept", ""), ("170", "all"), ("clock", "second")] {
            assert_eq!(Replacement::TakeOver.read(&took.replace(from, to)), None, "{to}");
        }
    }
}
