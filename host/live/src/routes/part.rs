//! The parts of a service's routes, each in the words in which `ip` takes it and shows it, and the commands that add and remove it.

use programs::{Program, IP, SYSCTL};
use std::fmt;

/// The protocol number by which `ip` shows who made a rule, a route or an entry of a neighbour. No routing daemon has it.
pub const MARK: &str = "110";
/// Before the tables main and default, and before the rules of most other programs: these are narrower than any.
const PREFERENCE: &str = "900";

/// A part.
#[derive(Clone, Debug, PartialEq, Eq)]
pub enum Part {
    /// A setting of the kernel. With slashes, since a device's name may have dots.
    Setting { name: String, value: &'static str },
    /// A device that is up.
    Link(String),
    /// A route of a table, or of the table main.
    Route { table: Option<u32>, route: String },
    /// An address for which the host answers ARP requests at a device.
    Neighbour(String),
    /// A rule that leads packets to a table.
    Rule(String),
}

impl Part {
    /// The command that adds it.
    pub fn addition(&self) -> Step {
        match self {
            Part::Setting { name, value } => {
                Step::new(SYSCTL, &["-q", "-w", &format!("{name}={value}")])
            }
            Part::Link(device) => Step::new(IP, &["link", "set", device, "up"]),
            _ => self.command("add"),
        }
    }

    /// The command that removes it. Settings and links stay: others may need them by now.
    pub fn removal(&self) -> Step {
        self.command("delete")
    }

    fn command(&self, action: &str) -> Step {
        let mark = format!("protocol {MARK}");
        let words = match self {
            Part::Setting { .. } | Part::Link(_) => String::new(),
            Part::Route { table: Some(table), route } => {
                format!("route {action} {route} table {table} {mark}")
            }
            Part::Route { table: None, route } => format!("route {action} {route} {mark}"),
            Part::Neighbour(entry) => format!("neighbour {action} proxy {entry} {mark}"),
            Part::Rule(rule) => format!("rule {action} pref {PREFERENCE} {rule} {mark}"),
        };
        Step::new(IP, &words.split(' ').collect::<Vec<_>>())
    }

    /// A rule as `ip rule show` tells it; none where another has made it.
    pub fn read_rule(line: &str) -> Option<Part> {
        let (_, rule) = line.split_once(":\t")?;
        let rule = rule.trim_end().strip_suffix(&format!(" proto {MARK}"))?;
        // so is told that there is no such interface at present
        Some(Part::Rule(rule.replace(" [detached]", "")))
    }

    /// A route as `ip route show` tells it where it was asked for those of the mark.
    pub fn read_route(table: Option<u32>, line: &str) -> Part {
        let shown = [" scope link", " linkdown", " dead"];
        let route =
            shown.iter().fold(line.trim_end().to_string(), |line, word| line.replace(word, ""));
        Part::Route { table, route }
    }

    /// An entry as `ip neighbour show proxy` tells it; none where another has made it.
    pub fn read_neighbour(line: &str) -> Option<Part> {
        let entry = line.trim_end().strip_suffix(&format!(" proxy proto {MARK}"))?;
        Some(Part::Neighbour(entry.into()))
    }
}

/// A command, as one would type it.
#[derive(Clone, Debug)]
pub struct Step {
    /// The program.
    pub program: Program,
    /// Its arguments.
    pub words: Vec<String>,
}

impl Step {
    /// A command with these arguments.
    pub fn new(program: Program, words: &[&str]) -> Step {
        Step { program, words: words.iter().map(|word| word.to_string()).collect() }
    }
}

impl fmt::Display for Step {
    fn fmt(&self, out: &mut fmt::Formatter<'_>) -> fmt::Result {
        write!(out, "{} {}", self.program.name(), self.words.join(" "))
    }
}
