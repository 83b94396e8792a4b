//! What the operator's command is asked to do, read from its words.

use crate::client::usage;
use crate::config::words::number;
use crate::control::commands::help::{self, Entry};
use crate::control::commands::server_name::ServerName;
use crate::control::commands::Command;
use crate::routes::Order;
use std::time::Duration;

/// What to do.
#[derive(Debug)]
pub enum Task {
    /// Print the help.
    Help,
    /// Print the help of a command.
    HelpOf(Entry),
    /// Print the version.
    Version,
    /// Say that line to the director, and print its answer.
    Say(String),
    /// Print the status, again each time it changed.
    Watch,
    /// Wait until a server has no connections.
    Wait {
        /// Its name.
        server: String,
        /// At most so long.
        time: Option<Duration>,
    },
    /// Drain it before.
    DrainAndWait {
        /// Its name.
        server: String,
        /// Wait at most so long.
        time: Option<Duration>,
    },
    /// Make, remove or print the host's routes to a service. That takes no director.
    Routes(Order),
}

impl Task {
    /// Reads the words after the socket's.
    pub fn read(words: &[&str]) -> Result<Task, String> {
        let entries = usage::entries();
        let known = |name: &str| {
            let found = help::entry(&entries, name).copied();
            found.ok_or_else(|| help::unknown(&entries, name))
        };
        match words {
            [] => Err(format!("expected a command\n{}", usage::all().trim_end())),
            ["--help" | "-h" | "help"] => Ok(Task::Help),
            ["--version"] => Ok(Task::Version),
            [name, .., "--help" | "-h"] | ["help", name] => known(name).map(Task::HelpOf),
            ["routes", arguments @ ..] => Order::read(arguments).map(Task::Routes),
            [name, arguments @ ..] => {
                let entry = known(name)?;
                match waiting(name, arguments)? {
                    Some(task) => Ok(task),
                    None if entry == usage::WAIT => Err(entry.expected(&words.join(" "))),
                    None => said(words),
                }
            }
        }
    }
}

/// A task that waits; None where the words are none.
fn waiting(name: &str, arguments: &[&str]) -> Result<Option<Task>, String> {
    let (server, time) = match (name, arguments) {
        ("wait", [server]) | ("drain", [server, "--wait"]) => (server, None),
        ("wait", [server, time]) | ("drain", [server, "--wait", time]) => (server, Some(time)),
        _ => return Ok(None),
    };
    // whether there is such a server, the director has to say
    ServerName::read(server)?;
    let time = time.map(|time| seconds(time)).transpose()?;
    let server = server.to_string();
    Ok(Some(match name {
        "wait" => Task::Wait { server, time },
        _ => Task::DrainAndWait { server, time },
    }))
}

fn seconds(word: &str) -> Result<Duration, String> {
    number::<u32>(word, "a number of seconds").map(|number| Duration::from_secs(number.into()))
}

/// A command of the director's, which is told by its own form where it is wrong.
fn said(words: &[&str]) -> Result<Task, String> {
    match (Command::read(words), words) {
        (Ok(Command::Watch), _) => Ok(Task::Watch),
        (Ok(_), _) => Ok(Task::Say(words.join(" "))),
        (Err(_), ["drain"] | ["drain", _, _, ..]) => Err(usage::DRAIN.expected(&words.join(" "))),
        (Err(complaint), _) => Err(complaint),
    }
}
