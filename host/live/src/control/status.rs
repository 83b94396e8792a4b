//! The servers with their weights, connections and states, as an operator reads them.

use crate::config::words;
use crate::control::json::Json;
use crate::control::load::Load;
use crate::control::table::aligned;
use crate::instance::Instance;

const TITLES: [&str; 7] =
    ["number", "address", "weight", "connections", "open", "finished", "state"];

/// The status: a line about the service, then a line for each server.
pub fn text(instance: &Instance) -> String {
    let clock = instance.director().clock();
    format!("{}, clock {clock}\n{}", summary(instance), table(instance))
}

/// All of the status but the clock: a watch tells it again when this changes.
pub fn timeless(instance: &Instance) -> String {
    format!("{}\n{}", summary(instance), table(instance))
}

/// The status as JSON.
pub fn json(instance: &Instance) -> Json {
    let (settings, director) = (instance.settings(), instance.director());
    let servers = Load::of_all(instance);
    Json::Object(vec![
        ("director", Json::text(instance.id())),
        ("service", Json::text(settings.service)),
        ("protocol", Json::text(words::protocol_name(settings.protocol))),
        ("scheduler", Json::text(words::scheduler_name(settings.scheduler))),
        ("slots", Json::from(director.slots() as u64)),
        ("used", Json::from(director.used())),
        ("clock", Json::from(director.clock())),
        ("servers", Json::Array(servers.iter().map(server_json).collect())),
    ])
}

fn server_json(load: &Load) -> Json {
    Json::Object(vec![
        ("server", Json::from(load.server as u64)),
        ("address", Json::text(load.at)),
        ("weight", Json::from(load.weight)),
        ("down", Json::Truth(load.is_down)),
        ("connections", Json::from(load.connections)),
        ("open", Json::from(load.open())),
        ("finished", Json::from(load.finished)),
        ("state", Json::text(load.state())),
    ])
}

fn summary(instance: &Instance) -> String {
    let (settings, director) = (instance.settings(), instance.director());
    format!(
        "service {} {}, {}, {} of {} slots used",
        settings.service,
        words::protocol_name(settings.protocol),
        words::scheduler_name(settings.scheduler),
        director.used(),
        director.slots(),
    )
}

fn table(instance: &Instance) -> String {
    let row = |load: Load| {
        let counts = [load.connections, load.open(), load.finished].map(|count| count.to_string());
        let [connections, open, finished] = counts;
        let (server, address) = (load.server.to_string(), load.at.to_string());
        let state = load.state().to_string();
        [server, address, load.weight.to_string(), connections, open, finished, state]
    };
    aligned(TITLES, Load::of_all(instance).into_iter().map(row))
}
