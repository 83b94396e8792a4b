//! What `nidhaagufctl status` says, read back.

use crate::lab::Failure;
use std::str::FromStr;

const TITLES: [&str; 7] =
    ["number", "address", "weight", "connections", "open", "finished", "state"];
/// Those of earlier programs, beside which this one's throughput is measured: they don't tell open and finished apart.
const EARLIER: [&str; 5] = ["number", "address", "weight", "connections", "state"];

/// How a server stands.
#[derive(Clone, Copy, Debug, PartialEq, Eq)]
pub enum Standing {
    /// It receives new connections.
    InService,
    /// It receives none, and still has some.
    Draining,
    /// It receives none, and has none.
    MayBeUnplugged,
    /// It is said to be down, and so receives none, whatever its weight.
    Down,
}

/// A server's line of the table.
#[derive(Clone, Debug, PartialEq, Eq)]
pub struct Row {
    /// Its number.
    pub number: usize,
    /// Its address and port.
    pub address: String,
    /// Its weight.
    pub weight: u16,
    /// Its connections.
    pub connections: u32,
    /// Those that aren't finished.
    pub open: u32,
    /// Those that both ends have finished.
    pub finished: u32,
    /// How it stands.
    pub standing: Standing,
}

/// The whole table, at one moment of the director's clock.
#[derive(Clone, Debug, PartialEq, Eq)]
pub struct Status {
    /// Used slots of the connection table.
    pub used: u32,
    /// All slots of the connection table.
    pub slots: u32,
    /// The director's clock, in seconds.
    pub clock: u32,
    /// The servers, by number.
    pub rows: Vec<Row>,
}

impl FromStr for Status {
    type Err = Failure;

    fn from_str(text: &str) -> Result<Status, Failure> {
        let strange = || Failure(format!("this is not a status:\n{text}"));
        let mut lines = text.lines();
        let (used, slots, clock) = lines.next().and_then(first_line).ok_or_else(strange)?;
        let names: Vec<&str> = lines.next().ok_or_else(strange)?.split_whitespace().collect();
        let is_earlier = names == EARLIER;
        let rows: Option<Vec<Row>> = lines.map(|line| row(line, is_earlier)).collect();
        let rows = rows.ok_or_else(strange)?;
        let in_order = rows.iter().enumerate().all(|(k, row)| row.number == k);
        if !is_earlier && names != TITLES || !in_order {
            return Err(strange());
        }
        Ok(Status { used, slots, clock, rows })
    }
}

/// Used slots, all slots and the clock in `service .., SCHEDULER, 7 of 4096 slots used, clock 1234`.
fn first_line(line: &str) -> Option<(u32, u32, u32)> {
    let mut parts = line.strip_prefix("service ")?.split(", ").skip(2);
    let (used, slots) = parts.next()?.strip_suffix(" slots used")?.split_once(" of ")?;
    let clock = parts.next()?.strip_prefix("clock ")?;
    Some((used.parse().ok()?, slots.parse().ok()?, clock.parse().ok()?))
}

/// A line whose open and finished connections add up to all of them.
fn row(line: &str, is_earlier: bool) -> Option<Row> {
    let mut words: Vec<&str> = line.split_whitespace().collect();
    if is_earlier {
        let connections = *words.get(3)?;
        words.splice(4..4, [connections, "0"]);
    }
    let [number, address, weight, connections, open, finished, state @ ..] = words.as_slice()
    else {
        return None;
    };
    let standing = match state.join(" ").as_str() {
        "in service" => Standing::InService,
        "draining" => Standing::Draining,
        "may be unplugged" => Standing::MayBeUnplugged,
        "down" | "down, draining" | "down, may be unplugged" => Standing::Down,
        _ => return None,
    };
    let row = Row {
        number: number.parse().ok()?,
        address: address.to_string(),
        weight: weight.parse().ok()?,
        connections: connections.parse().ok()?,
        open: open.parse().ok()?,
        finished: finished.parse().ok()?,
        standing,
    };
    (row.open + row.finished == row.connections).then_some(row)
}

#[cfg(test)]
impl Status {
    /// For tests: servers in service with these counts.
    pub fn of_counts(clock: u32, counts: &[u32]) -> Status {
        let row = |(number, &connections)| {
            let (address, weight, standing) = (String::new(), 1, Standing::InService);
            let (open, finished) = (connections, 0);
            Row { number, address, weight, connections, open, finished, standing }
        };
        let rows = counts.iter().enumerate().map(row).collect();
        Status { used: counts.iter().sum(), slots: 4096, clock, rows }
    }
}

#[cfg(test)]
mod tests {
    use super::*;

    const TEXT: &str = "\
service 192.0.2.10:5432 tcp, least-connection, 7 of 4096 slots used, clock 1234
number  address        weight  connections  open  finished  state
0       10.1.0.5:6432  1       3            1     2         in service
1       10.2.0.5:6432  0       2            2     0         draining
2       10.3.0.5:6432  0       0            0     0         may be unplugged
3       10.4.0.5:6432  1       2            2     0         down
4       10.5.0.5:6432  0       0            0     0         down, may be unplugged
";

    #[test]
    fn a_status_is_read() {
        let status: Status = TEXT.parse().unwrap();
        assert_eq!((status.used, status.slots, status.clock), (7, 4096, 1234));
        let rows: Vec<_> = status
            .rows
            .iter()
            .map(|row| (row.number, row.weight, row.connections, row.finished, row.standing))
            .collect();
        let want = [
            (0, 1, 3, 2, Standing::InService),
            (1, 0, 2, 0, Standing::Draining),
            (2, 0, 0, 0, Standing::MayBeUnplugged),
            (3, 1, 2, 0, Standing::Down),
            (4, 0, 0, 0, Standing::Down),
        ];
        assert_eq!(rows, want);
        assert_eq!(status.rows[2].address, "10.3.0.5:6432");
    }

    #[test]
    fn a_status_of_an_earlier_program_is_read() {
        let text = "\
service 192.0.2.10:5432 tcp, least-connection, 3 of 4096 slots used, clock 1234
number  address        weight  connections  state
0       10.1.0.5:6432  1       3            in service
";
        let status: Status = text.parse().unwrap();
        let row = &status.rows[0];
        assert_eq!((row.connections, row.open, row.finished), (3, 3, 0));
        assert!(text.replace("  state", "  open  state").parse::<Status>().is_err());
        assert!(text.replace("            in", "").parse::<Status>().is_err());
    }

    #[test]
    fn anything_else_is_refused() {
        for (from, to) in [
            ("clock 1234", "clock x"),
            ("7 of 4096", "7 4096"),
            ("draining", "drained"),
            ("connections", "count"),
            ("1       10.2", "5       10.2"),
            ("      3  ", "      -3 "),
            ("1     2 ", "1     1 "),
        ] {
            let text = TEXT.replacen(from, to, 1);
            assert_ne!(text, TEXT, "{from} is in the text");
            assert!(text.parse::<Status>().is_err(), "{to}");
        }
        assert!("".parse::<Status>().is_err());
    }
}
