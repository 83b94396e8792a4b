//! An operator's commands, answered.

pub mod changes;
pub mod help;
pub mod read;
pub mod server_name;

use crate::config::reload::Reload;
use crate::control::json::Json;
use crate::control::left::Left;
use crate::control::listing::Listing;
use crate::control::load::Load;
use crate::control::{metrics, status};
use crate::instance::Instance;
use server_name::ServerName;
use std::fmt::Display;
use std::net::SocketAddrV4;

/// A command.
#[derive(Clone, Debug, PartialEq, Eq)]
pub enum Command {
    /// The table of the servers.
    Status(Form),
    /// Tells a server's connections.
    Count(ServerName, Form),
    /// Lists the connections, of all servers or of one.
    Connections(Option<ServerName>, Form),
    /// Tells what is left of a server's connections, for who waits for their end.
    Left(ServerName),
    /// Sets the weights of servers, all or none.
    Weights(Vec<(ServerName, u16)>),
    /// Says that a server is down.
    Down(ServerName),
    /// Says that it is up again.
    Up(ServerName),
    /// Ends a client's connection.
    Disconnect(SocketAddrV4),
    /// Ends all connections of a server.
    Flush(ServerName),
    /// The status, again each time it changed.
    Watch,
    /// All counts.
    Metrics,
    /// Reads the configuration anew.
    Reload,
    /// The commands.
    Help,
}

/// For whom an answer is.
#[derive(Clone, Copy, Debug, PartialEq, Eq)]
pub enum Form {
    /// For people.
    Text,
    /// For programs.
    Json,
}

/// What a client is told.
#[derive(Clone, Debug, PartialEq, Eq)]
pub enum Text {
    /// A text.
    Made(String),
    /// One that takes long to make, and for which the director isn't needed any more.
    ToBeMade(Listing, Form),
}

impl Text {
    /// The text.
    pub fn made(self) -> String {
        match self {
            Text::Made(text) => text,
            Text::ToBeMade(listing, Form::Text) => listing.text(),
            Text::ToBeMade(listing, Form::Json) => line(listing.json()),
        }
    }
}

/// What a command came to.
#[derive(Clone, Debug, PartialEq, Eq)]
pub struct Answer {
    /// What its client is told.
    pub text: Text,
    /// What it changed, a line each, for the log.
    pub changes: Vec<String>,
}

impl Command {
    /// Carries it out. A watch is answered like a status; that it goes on is its connection's matter.
    pub fn answer(&self, instance: &mut Instance, reload: &mut Reload) -> Result<Answer, String> {
        match self {
            Command::Weights(weights) => return changes::set_weights(instance, weights),
            Command::Down(server) => return changes::set_down(instance, *server, true),
            Command::Up(server) => return changes::set_down(instance, *server, false),
            Command::Disconnect(client) => return changes::disconnect(instance, *client),
            Command::Flush(server) => return changes::flush(instance, *server),
            Command::Reload => return reload.apply(instance).map(changes::reloaded),
            _ => {}
        }
        let text = self.told(instance)?;
        Ok(Answer { text, changes: Vec::new() })
    }

    /// The answer to a command that changes nothing.
    fn told(&self, instance: &Instance) -> Result<Text, String> {
        Ok(Text::Made(match self {
            Command::Status(Form::Json) => line(status::json(instance)),
            Command::Count(server, form) => {
                let load = server.load(instance)?;
                match form {
                    Form::Text => line(load.connections),
                    Form::Json => line(count_json(&load)),
                }
            }
            Command::Connections(server, form) => {
                let server = server.map(|server| server.number(instance)).transpose()?;
                return Ok(Text::ToBeMade(Listing::of(instance, server), *form));
            }
            Command::Left(server) => line(Left::of(instance, server.load(instance)?)),
            Command::Metrics => metrics::text(instance),
            Command::Help => help::text(&help::COMMANDS),
            _ => status::text(instance),
        }))
    }
}

fn line(value: impl Display) -> String {
    format!("{value}\n")
}

fn count_json(load: &Load) -> Json {
    Json::Object(vec![
        ("server", Json::from(load.server as u64)),
        ("address", Json::text(load.at)),
        ("connections", Json::from(load.connections)),
        ("open", Json::from(load.open())),
        ("finished", Json::from(load.finished)),
    ])
}
