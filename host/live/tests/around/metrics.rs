//! Names and labels of metrics, in the daemon's own text and in what asks for them.

use crate::network::Network;
use crate::service::Service;
use std::collections::BTreeSet;

const PREFIX: &str = "nidhaaguf_";

/// The metrics of a daemon that has just been started.
pub fn real_metrics(network: &Network) -> String {
    let service = Service::new(network, "metrics", crate::routes::NEAR).serve(network);
    service.control(network, &["metrics"])
}

/// What the text form of Prometheus has.
pub struct Metrics {
    names: BTreeSet<String>,
    labels: BTreeSet<(String, String)>,
}

impl Metrics {
    /// Reads such a text.
    pub fn read(text: &str) -> Metrics {
        let samples = text.lines().filter(|line| !line.starts_with('#'));
        let name = |line: &str| line.split(['{', ' ']).next().unwrap_or_default().to_string();
        Metrics {
            names: samples.clone().map(name).collect(),
            labels: samples.flat_map(label_values).collect(),
        }
    }

    /// The names of all metrics.
    pub fn names(&self) -> &BTreeSet<String> {
        &self.names
    }

    /// Whether there is a metric of that name.
    pub fn has(&self, name: &str) -> bool {
        self.names.contains(name)
    }

    /// Whether some sample has that label with that value. What Prometheus itself adds, or a reader chooses, counts as told.
    pub fn has_label(&self, label: &str, value: &str) -> bool {
        label == "instance" || self.labels.contains(&(label.to_string(), value.to_string()))
    }
}

/// The names of metrics that a text has.
pub fn metric_names(text: &str) -> BTreeSet<String> {
    let is_of_name = |byte: &char| byte.is_ascii_alphanumeric() || *byte == '_';
    let rest = text.split(PREFIX).skip(1);
    rest.map(|rest| PREFIX.to_string() + &rest.chars().take_while(is_of_name).collect::<String>())
        .collect()
}

/// The pairs `label="value"` in braces; in JSON the quotation marks are escaped.
pub fn label_values(text: &str) -> BTreeSet<(String, String)> {
    let text = text.replace("\\\"", "\"");
    let braces = text.split(PREFIX).skip(1).filter_map(|rest| rest.split_once('{'));
    let inside = braces
        .filter(|(name, _)| !name.contains([' ', ')']))
        .filter_map(|(_, rest)| rest.split_once('}'));
    let pairs =
        inside.flat_map(|(inside, _)| inside.split("\",").map(str::to_string).collect::<Vec<_>>());
    let pairs = pairs.filter_map(|pair| {
        let (label, value) = pair.split_once("=")?;
        Some((label.trim().to_string(), value.trim_matches(['"', '~']).to_string()))
    });
    pairs.collect()
}
