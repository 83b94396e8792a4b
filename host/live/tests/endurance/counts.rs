//! The daemon's counts, and those that it should have.

use std::collections::BTreeMap;

/// Counts by name and labels, without the words of the reasons; zeros are left out.
#[derive(Clone, Debug, Default, PartialEq, Eq)]
pub struct Counts(BTreeMap<String, u64>);

impl Counts {
    /// Reads the text of `metrics`.
    pub fn of_metrics(text: &str) -> Counts {
        let mut counts = Counts::default();
        for line in text.lines().filter(|line| !line.starts_with('#')) {
            let (name, value) = line.rsplit_once(' ').expect(line);
            let name = match name.split_once(",reason=") {
                Some((before, _)) => format!("{before}}}"),
                None => name.to_string(),
            };
            counts.add(&name, value.parse().expect(line));
        }
        counts
    }

    /// Adds to a count.
    pub fn add(&mut self, name: &str, more: u64) {
        if more > 0 {
            *self.0.entry(name.to_string()).or_default() += more;
        }
    }

    /// A count.
    pub fn get(&self, name: &str) -> u64 {
        self.0.get(name).copied().unwrap_or(0)
    }

    /// All packets, accepted and refused.
    pub fn packets(&self) -> u64 {
        let of_packets =
            |name: &str| name.contains("_packets_total") || name.contains("_refusals_total{");
        self.0.iter().filter(|(name, _)| of_packets(name)).map(|(_, value)| value).sum()
    }

    /// The same without those of a name, which can't be foretold.
    pub fn without(mut self, name: &str) -> Counts {
        self.0.retain(|found, _| found.split('{').next() != Some(name));
        self
    }
}
