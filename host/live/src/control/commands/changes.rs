//! The commands that change something.

use super::server_name::ServerName;
use super::{Answer, Text};
use crate::config::reload::Applied;
use crate::control::load::Load;
use crate::instance::Instance;
use nidhaaguf::{Phase, Protocol, Refusal};
use std::net::SocketAddrV4;

/// Sets weights, all or none: nothing is set before each server is found, and found once.
pub fn set_weights(
    instance: &mut Instance,
    weights: &[(ServerName, u16)],
) -> Result<Answer, String> {
    let numbers = weights.iter().map(|(server, weight)| Ok((server.number(instance)?, *weight)));
    let numbers = numbers.collect::<Result<Vec<(usize, u16)>, String>>()?;
    check_once(&numbers)?;
    let mut changes = Vec::new();
    for &(server, weight) in &numbers {
        // never refused: there is such a server, and it may have any weight
        changes.extend(instance.set_weight(server, weight).map_err(refused)?);
    }
    let mut text = String::new();
    for (server, _) in numbers {
        text.push_str(&format!("{}\n", Load::of(instance, server).map_err(refused)?));
    }
    let changes = changes.iter().map(ToString::to_string).collect();
    Ok(Answer { text: Text::Made(text), changes })
}

fn check_once(weights: &[(usize, u16)]) -> Result<(), String> {
    for (place, (server, _)) in weights.iter().enumerate() {
        if weights[..place].iter().any(|(earlier, _)| earlier == server) {
            return Err(format!("expected each server once, got server {server} twice"));
        }
    }
    Ok(())
}

/// Says that a server is down or up, whatever its weight.
pub fn set_down(instance: &mut Instance, name: ServerName, down: bool) -> Result<Answer, String> {
    let server = name.number(instance)?;
    let is_new = instance.set_down(server, down).map_err(refused)?;
    let load = Load::of(instance, server).map_err(refused)?;
    let words = if down { "down" } else { "up" };
    let change = is_new.then(|| format!("server {server} ({}): {words}", load.at));
    let text = Text::Made(format!("{load}\n"));
    Ok(Answer { text, changes: change.into_iter().collect() })
}

/// Ends a client's connection.
pub fn disconnect(instance: &mut Instance, client: SocketAddrV4) -> Result<Answer, String> {
    check_protocol(instance)?;
    let Some(server) = instance.disconnect(client) else {
        return Err(format!("there is no connection of {client}"));
    };
    let at = instance.settings().servers[server].at;
    let change = format!("client {client} disconnected from server {server} ({at})");
    Ok(Answer { text: Text::Made(format!("{change}\n")), changes: vec![change] })
}

/// Ends all connections of a server.
pub fn flush(instance: &mut Instance, name: ServerName) -> Result<Answer, String> {
    let server = name.number(instance)?;
    check_protocol(instance)?;
    let ended = instance.flush(server).map_err(refused)?;
    let load = Load::of(instance, server).map_err(refused)?;
    let change = format!("server {server} ({}): {ended} connections flushed", load.at);
    let changes = Vec::from_iter((ended > 0).then(|| change.clone()));
    Ok(Answer { text: Text::Made(format!("{change}\n{load}\n")), changes })
}

/// Connections are ended by a packet, and UDP has none for that.
fn check_protocol(instance: &Instance) -> Result<(), String> {
    match instance.settings().protocol {
        Protocol::Tcp => Ok(()),
        protocol @ Protocol::Udp => {
            let seconds = Phase::Open.idle_limit(protocol);
            let silence = format!("they end by {seconds} s without a packet");
            Err(format!(
                "expected a service of TCP: connections of UDP can't be ended here, {silence}"
            ))
        }
    }
}

/// What a reload answers.
pub fn reloaded(changes: Vec<Applied>) -> Answer {
    let changes: Vec<String> = changes.iter().map(ToString::to_string).collect();
    let text = match changes.as_slice() {
        [] => "nothing has changed\n".into(),
        changes => changes.iter().map(|change| format!("{change}\n")).collect(),
    };
    Answer { text: Text::Made(text), changes }
}

fn refused(refusal: Refusal) -> String {
    refusal.to_string()
}
