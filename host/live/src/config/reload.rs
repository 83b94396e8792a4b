//! The configuration read anew while the director serves: its changed weights are set, what it says of unknown connections and late
//! openings is kept, and any other change is refused.

use crate::config::compare::{difference, Difference};
use crate::config::flags::Flags;
use crate::config::given::Given;
use crate::config::{setup, Config};
use crate::instance::{Instance, WeightChange};
use crate::policy::Policy;
use nidhaaguf::{Server, Settings};
use std::fmt;

/// What a reload needs.
#[derive(Debug)]
pub struct Reload {
    flags: Flags,
    started: Config,
    /// Read, and not applied yet.
    read: Option<Result<Config, String>>,
}

impl Reload {
    /// For a director that was started with these flags and this configuration.
    pub fn new(flags: Flags, started: Config) -> Reload {
        Reload { flags, started, read: None }
    }

    /// Reads the file for the next [`apply`](Reload::apply). It takes no director, so packets don't wait for the disk.
    pub fn read(&mut self) {
        self.read = Some(load(&self.flags));
    }

    /// Applies what has changed in the file, all or nothing.
    pub fn apply(&mut self, instance: &mut Instance) -> Result<Vec<Applied>, String> {
        let read = self.read.take().unwrap_or_else(|| load(&self.flags));
        let applied = read.and_then(|config| self.apply_read(&config, instance));
        applied.map_err(|complaint| format!("{complaint}; nothing was changed"))
    }

    fn apply_read(&self, config: &Config, instance: &mut Instance) -> Result<Vec<Applied>, String> {
        let mut changes = Vec::new();
        for (server, weight) in changed_weights(config, &self.started, instance.settings())? {
            // never refused: the server is there
            let change = instance.set_weight(server, weight);
            let change = change.map_err(|refusal| refusal.to_string())?;
            changes.extend(change.map(Applied::Weight));
        }
        changes.extend(other_policy(instance.policy(), config.policy()));
        instance.set_policy(config.policy());
        instance.keep_settings(config.settings());
        Ok(changes)
    }
}

/// A change that a reload has made, as it is told.
#[derive(Clone, Debug, PartialEq, Eq)]
pub enum Applied {
    /// Of a weight.
    Weight(WeightChange),
    /// Of another setting, by its name: what it was, and what it is.
    Setting(&'static str, String, String),
}

impl fmt::Display for Applied {
    fn fmt(&self, out: &mut fmt::Formatter<'_>) -> fmt::Result {
        match self {
            Applied::Weight(change) => write!(out, "{change}"),
            Applied::Setting(name, old, new) => write!(out, "{name} {old} -> {new}"),
        }
    }
}

fn other_policy(old: Policy, new: Policy) -> impl Iterator<Item = Applied> {
    let words = |policy: Policy| {
        [
            ("unknown", policy.unknown.to_string()),
            ("opening-timeout", policy.opening_timeout.to_string()),
        ]
    };
    let pairs = words(old).into_iter().zip(words(new));
    let others = pairs.filter(|(old, new)| old != new);
    others.map(|((name, old), (_, new))| Applied::Setting(name, old, new))
}

/// A configuration that a start would take.
fn load(flags: &Flags) -> Result<Config, String> {
    let config = Config::load_again(flags.clone())?;
    setup::set_up(&config).map(|_| config)
}

/// The servers whose weight is another one than in `settings`, which are of the configuration applied last. An error says
/// which line asks for what only a restart can do.
pub fn changed_weights(
    new: &Config,
    started: &Config,
    settings: &Settings,
) -> Result<Vec<(usize, u16)>, String> {
    if let Some(Difference { part, running, configured }) =
        difference(new, settings, started.slots.value)
    {
        let Given { value, place } = configured;
        let other = format!("{place}: another {part} ({value} instead of {running})");
        return Err(format!("{other} needs a restart, which forgets all connections"));
    }
    let device = other(&new.device, &started.device.value, "device");
    let socket = || other(&new.socket, &started.socket.value, "control socket");
    let state = || other(&new.state, &started.state.value, "state file");
    match device.or_else(socket).or_else(state) {
        Some(other) => Err(format!("{other} needs a restart")),
        None => Ok(other_weights(&new.servers, &settings.servers)),
    }
}

fn other<T: PartialEq>(new: &Given<T>, old: &T, name: &str) -> Option<String> {
    (new.value != *old).then(|| format!("{}: another {name}", new.place))
}

fn other_weights(new: &[Given<Server>], servers: &[Server]) -> Vec<(usize, u16)> {
    let pairs = new.iter().zip(servers).enumerate();
    let others = pairs.filter(|(_, (given, old))| given.value.weight != old.weight);
    others.map(|(number, (given, _))| (number, given.value.weight)).collect()
}
