//! The host's routes to one service, made and removed: `nidhaagufctl routes`.
//!
//! They are as narrow as the service: what goes to its address and port, and what its servers send from theirs, looks for its way in a
//! table of the service's own, and nothing else does. Whatever is made is marked with a protocol number, and is found again by it.

mod host;
mod part;
mod plan;
mod present;

use crate::config::flags::Flags;
use crate::config::given::Given;
use crate::config::{setup, Config};
use part::{Part, Step};
use std::path::PathBuf;

/// How it is said.
pub const FORM: &str = "routes --up | --down | --print --config FILE [--device NAME]";

/// What the flags do.
pub const FLAGS: &str = "\
--up      make the routes of the service that the configuration names, and tell each command; what is there stays
--down    remove what --up has made, also where the device is gone
--print   print the commands of --up as a script, and change nothing
";

/// What is to become of the routes.
#[derive(Clone, Copy, Debug, PartialEq, Eq)]
enum Action {
    Up,
    Down,
    Print,
}

/// What a command line asks for.
#[derive(Debug)]
pub struct Order {
    action: Action,
    flags: Flags,
}

/// Reads the words after `routes` and does what they say. Gives what is to be printed.
pub fn run(words: &[&str]) -> Result<String, String> {
    Order::read(words)?.carry_out()
}

impl Order {
    /// Reads the words after `routes`. An error is wrong usage.
    pub fn read(words: &[&str]) -> Result<Order, String> {
        let (mut actions, mut flags) = (Vec::new(), Flags::default());
        let mut rest = words.iter();
        while let Some(&word) = rest.next() {
            let mut value = || {
                let value = rest.next().map(|value| value.to_string());
                value.ok_or_else(|| format!("{word}: expected a value after it"))
            };
            match word {
                "--up" => actions.push(Action::Up),
                "--down" => actions.push(Action::Down),
                "--print" => actions.push(Action::Print),
                "--config" => flags.config = Some(PathBuf::from(value()?)),
                "--device" => flags.device = Some(Given::new(value()?, word)),
                _ => return Err(with_usage(&format!("{word:?}: there is no such flag"))),
            }
        }
        match (actions.as_slice(), &flags.config) {
            ([action], Some(_)) => Ok(Order { action: *action, flags }),
            ([_], None) => Err(with_usage("--config FILE is missing")),
            _ => Err(with_usage("expected one of --up, --down and --print")),
        }
    }

    /// Does it. Gives what is to be printed; an error tells the command that failed and what it said.
    pub fn carry_out(self) -> Result<String, String> {
        let config = Config::load(self.flags)?;
        setup::set_up(&config)?;
        match self.action {
            Action::Up => up(&config),
            Action::Down => down(&config),
            Action::Print => print(&config),
        }
    }
}

fn with_usage(complaint: &str) -> String {
    format!("{complaint}\nusage: nidhaagufctl {FORM}\n\n{FLAGS}")
}

/// Adds what is missing, and removes what an earlier configuration of the service had.
fn up(config: &Config) -> Result<String, String> {
    let wanted = plan::parts(config)?;
    host::check_device(&config.device.value)?;
    let found = present::of_service(config)?;
    present::check_others(config, &wanted)?;
    let is_there = |part: &Part| Ok(found.contains(part) || host::is_so(part)?);
    let there: Result<Vec<bool>, String> = wanted.iter().map(is_there).collect();
    let missing = wanted.iter().zip(there?).filter(|(_, there)| !there);
    let surplus = found.iter().filter(|part| !wanted.contains(part));
    // a route gives its place to the next, and rules stay until the next are there
    let (rules, others): (Vec<&Part>, Vec<&Part>) =
        surplus.partition(|part| matches!(part, Part::Rule(_)));
    let others = others.into_iter().map(Part::removal);
    let added = missing.map(|(part, _)| part.addition());
    run_all(others.chain(added).chain(rules.into_iter().map(Part::removal)))
}

fn down(config: &Config) -> Result<String, String> {
    let is_shared = present::is_address_shared(config)?;
    let mut found = present::of_service(config)?;
    found.retain(|part| !(is_shared && matches!(part, Part::Neighbour(_))));
    // rules first: else packets would look in an empty table, and find another way
    found.reverse();
    let told = run_all(found.iter().map(Part::removal))?;
    Ok(format!("{told}the device and the kernel's settings are left as they are\n"))
}

fn print(config: &Config) -> Result<String, String> {
    let service = plan::service_name(config);
    let head =
        format!("#!/bin/sh\n# The routes of the service {service}, of {}.\nset -e\n", config.name);
    let lines = plan::parts(config)?.into_iter().map(|part| format!("{}\n", part.addition()));
    Ok(lines.fold(head, |text, line| text + &line))
}

/// Runs commands to the first that fails, and tells them.
fn run_all(commands: impl Iterator<Item = Step>) -> Result<String, String> {
    let mut told = String::new();
    for command in commands {
        let (ended, line) = (host::run(&command), format!("{command}\n"));
        // what was done until then is told too
        ended.map_err(|complaint| format!("{told}{complaint}"))?;
        told += &line;
    }
    Ok(if told.is_empty() { "nothing has changed\n".into() } else { told })
}
