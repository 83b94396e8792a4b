//! How far a wait has come: a line that is written anew on a terminal, and elsewhere a line for each change.

use crate::client::failure::Failure;
use crate::client::output::print_on;
use crate::control::left::Left;
use std::io::{self, IsTerminal};

/// To the line before, which is then empty. So the line that is written to is always a new one, and whoever ends the program at
/// any moment, as by Ctrl-C, finds the terminal clean.
const BACK: &str = "\x1b[A\r\x1b[2K";
/// What doesn't fit a narrow terminal is cut: a second line would not be written anew.
const CUT: &str = "\x1b[?7l";
const WRAP: &str = "\x1b[?7h";

/// What was shown last.
#[derive(Debug)]
pub struct Progress {
    on_terminal: bool,
    shown: Option<(String, [u32; 2])>,
}

impl Progress {
    /// Nothing was shown yet.
    pub fn new() -> Progress {
        let is_dumb = std::env::var_os("TERM").is_some_and(|name| name == "dumb");
        Progress { on_terminal: io::stdout().is_terminal() && !is_dumb, shown: None }
    }

    /// Shows what is left.
    pub fn show(&mut self, left: &Left) -> Result<(), Failure> {
        let (line, counts) = (text(left), [left.connections, left.finished]);
        let is_new = match &self.shown {
            None => true,
            Some((shown, _)) if self.on_terminal => *shown != line,
            Some((_, shown)) => *shown != counts,
        };
        if !is_new {
            return Ok(());
        }
        let back = if self.shown.is_some() { BACK } else { "" };
        print_on(&match self.on_terminal {
            true => format!("{back}{CUT}{line}{WRAP}\n"),
            false => format!("{line}\n"),
        })?;
        self.shown = Some((line, counts));
        Ok(())
    }
}

/// What is left, in a line.
pub fn text(left: &Left) -> String {
    let Left { server, at, connections, finished, last, idle, .. } = left;
    let open = connections.saturating_sub(*finished);
    let parts = [
        (open, format!("{open} open, longest idle {idle} s")),
        (*finished, format!("{finished} finished, the last of them goes in {last} s")),
    ];
    let parts: Vec<String> =
        parts.into_iter().filter(|(count, _)| *count > 0).map(|(_, part)| part).collect();
    match parts.as_slice() {
        [] => format!("server {server} ({at}): no connections left"),
        parts => {
            format!("server {server} ({at}): {connections} connections left: {}", parts.join("; "))
        }
    }
}
