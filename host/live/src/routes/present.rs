//! What is there of a service's routes, and what is there of others that doesn't go with them.

use super::host;
use super::part::{Part, MARK};
use super::plan;
use crate::config::Config;

/// The parts that an earlier command has made for the service, whatever the configuration was then, in the order of [`plan::parts`].
pub fn of_service(config: &Config) -> Result<Vec<Part>, String> {
    let (table, address) = (plan::table(config), config.service.value.0.ip().to_string());
    let own = host::ip(&format!("route show table {table} proto {MARK}"));
    // an empty table isn't there
    let own = own.unwrap_or_default();
    let mut parts: Vec<Part> =
        own.lines().map(|line| Part::read_route(Some(table), line)).collect();
    let main = host::ip(&format!("route show exact {address}/32 proto {MARK}"))?;
    let main = main.lines().map(|line| Part::read_route(None, line));
    let metric = format!(" metric {table}");
    parts.extend(
        main.filter(|part| matches!(part, Part::Route { route, .. } if route.ends_with(&metric))),
    );
    let shown = host::ip("neighbour show proxy")?;
    let here = shown.lines().filter(|line| line.starts_with(&format!("{address} ")));
    parts.extend(here.filter_map(Part::read_neighbour));
    let rules = host::ip("rule show")?;
    parts.extend(rules.lines().filter(|line| is_of(line, table)).filter_map(Part::read_rule));
    Ok(parts)
}

/// Whether another service on this host has the same virtual address.
pub fn is_address_shared(config: &Config) -> Result<bool, String> {
    let (table, address) = (plan::table(config), config.service.value.0.ip().to_string());
    let is_to = |line: &str| {
        Part::read_rule(line).is_some() && host::word_after(line, "to").as_ref() == Some(&address)
    };
    let rules = host::ip("rule show")?;
    Ok(rules.lines().any(|line| is_to(line) && !is_of(line, table)))
}

/// Whether a rule leads to that table.
fn is_of(line: &str, table: u32) -> bool {
    host::word_after(line, "lookup") == Some(table.to_string())
}

/// Fails where others have something in the service's table, or lead the answers of one of its servers elsewhere.
pub fn check_others(config: &Config, wanted: &[Part]) -> Result<(), String> {
    let table = plan::table(config);
    let rules = host::ip("rule show")?;
    let strange =
        rules.lines().filter(|line| is_of(line, table)).find(|line| match Part::read_rule(line) {
            None => true,
            Some(part) => host::word_after(line, "to").is_some() && !wanted.contains(&part),
        });
    let routes = host::ip(&format!("route show table {table}")).unwrap_or_default();
    let mark = format!(" proto {MARK} ");
    let strange = strange.or(routes.lines().find(|line| !format!("{line} ").contains(&mark)));
    if let Some(line) = strange {
        return Err(format!(
            "table {table} is this service's by its number, and something else has made there: {}",
            line.trim()
        ));
    }
    for server in &config.servers {
        let rule = plan::rule_of_server(config, server.value.at)?;
        if let Some(line) = rules.lines().find(|line| line.contains(&rule) && !is_of(line, table)) {
            let (at, place) = (server.value.at, &server.place);
            let words = "is a server of another service on this host, and whose answers are whose can't be told: it needs another port";
            return Err(format!("{place}: {at} {words}: {}", line.trim()));
        }
    }
    Ok(())
}
