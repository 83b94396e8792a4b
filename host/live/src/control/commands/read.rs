//! Commands read from their words.

use super::help::{self, COMMANDS};
use super::server_name::ServerName;
use super::{Command, Form};
use crate::config::words;

/// The commands that tell JSON too.
const WITH_JSON: [&str; 3] = ["status", "count", "connections"];

impl Command {
    /// Reads a command's words.
    pub fn read(words: &[&str]) -> Result<Command, String> {
        let (name, arguments) = words.split_first().unwrap_or((&"", &[]));
        let entry = help::entry(&COMMANDS, name).ok_or_else(|| help::unknown(&COMMANDS, name))?;
        let command = match arguments {
            [before @ .., "--json"] if WITH_JSON.contains(name) => looks(name, before, Form::Json)?,
            arguments => match looks(name, arguments, Form::Text)? {
                None => deeds(name, arguments)?,
                look => look,
            },
        };
        command.ok_or_else(|| entry.expected(&words.join(" ")))
    }
}

/// The commands that change nothing; None for others, and where there are too few or too many arguments.
fn looks(name: &str, arguments: &[&str], form: Form) -> Result<Option<Command>, String> {
    Ok(Some(match (name, arguments) {
        ("status", []) => Command::Status(form),
        ("count", [server]) => Command::Count(ServerName::read(server)?, form),
        ("connections", []) => Command::Connections(None, form),
        ("connections", [server]) => Command::Connections(Some(ServerName::read(server)?), form),
        ("left", [server]) => Command::Left(ServerName::read(server)?),
        ("watch", []) => Command::Watch,
        ("metrics", []) => Command::Metrics,
        ("help", []) => Command::Help,
        _ => return Ok(None),
    }))
}

/// The commands that change something.
fn deeds(name: &str, arguments: &[&str]) -> Result<Option<Command>, String> {
    Ok(Some(match (name, arguments) {
        ("weight", [server, weight]) => {
            Command::Weights(vec![(ServerName::read(server)?, words::weight(weight)?)])
        }
        ("weights", [_, ..]) => {
            Command::Weights(arguments.iter().map(|word| pair(word)).collect::<Result<_, _>>()?)
        }
        ("drain", [server]) => Command::Weights(vec![(ServerName::read(server)?, 0)]),
        ("down", [server]) => Command::Down(ServerName::read(server)?),
        ("up", [server]) => Command::Up(ServerName::read(server)?),
        ("disconnect", [client]) => Command::Disconnect(words::address(client)?),
        ("flush", [server]) => Command::Flush(ServerName::read(server)?),
        ("reload", []) => Command::Reload,
        _ => return Ok(None),
    }))
}

/// A server and its weight, as `0=1` or `10.1.0.5:6432=1`.
fn pair(word: &str) -> Result<(ServerName, u16), String> {
    let (server, weight) = word
        .split_once('=')
        .ok_or_else(|| format!("expected a server and its weight, as 0=1, got {word:?}"))?;
    Ok((ServerName::read(server)?, words::weight(weight)?))
}
