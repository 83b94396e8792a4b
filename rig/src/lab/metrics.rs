//! What the director's metrics say.

use crate::lab::director::Director;
use crate::lab::{ensure, Failure};

impl Director {
    /// How many connections it has opened, by its metrics.
    pub fn openings(&self) -> Result<usize, Failure> {
        self.metric("packets_total", &["way=\"inbound\"", "answer=\"opened\""])
    }

    /// How many packets it has refused with that number, by its metrics.
    pub fn refusals(&self, number: u32) -> Result<usize, Failure> {
        self.metric("refusals_total", &[&format!("number=\"{number}\"")])
    }

    /// How many connections were ended by that, by its metrics.
    pub fn endings(&self, by: &str) -> Result<usize, Failure> {
        self.metric("endings_total", &[&format!("by=\"{by}\"")])
    }

    /// The sum of a metric's samples that have all these labels.
    pub fn metric(&self, name: &str, labels: &[&str]) -> Result<usize, Failure> {
        let metrics = self.metrics()?;
        let samples = metrics.lines().filter_map(|line| line.strip_prefix("nidhaaguf_"));
        let samples = samples.filter_map(|line| line.strip_prefix(name)?.rsplit_once(' '));
        let samples = samples.filter(|(found, _)| {
            found.starts_with('{') && labels.iter().all(|label| found.contains(label))
        });
        let numbers: Vec<usize> = samples.filter_map(|(_, number)| number.parse().ok()).collect();
        let words = format!("the metrics have no {name} with {labels:?}");
        ensure(!numbers.is_empty(), words)?;
        Ok(numbers.iter().sum())
    }
}
