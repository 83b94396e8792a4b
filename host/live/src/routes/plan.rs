//! What the routes of a service have to be.

use super::host;
use super::part::{Part, MARK};
use crate::config::words::protocol_name;
use crate::config::Config;
use std::collections::BTreeSet;
use std::net::{Ipv4Addr, SocketAddrV4};

/// The service as the configuration names it: `192.0.2.10:5432 tcp`.
pub fn service_name(config: &Config) -> String {
    let (at, protocol) = config.service.value;
    format!("{at} {}", protocol_name(protocol))
}

/// The number of the service's table, by its name (FNV-1a), between 2^30 and 2^31: no table that people number is there. So two
/// services have two, and a removal finds it again.
pub fn table(config: &Config) -> u32 {
    let name = service_name(config);
    let hash = name
        .bytes()
        .fold(0x811C_9DC5_u32, |hash, byte| (hash ^ u32::from(byte)).wrapping_mul(0x0100_0193));
    1 << 30 | hash >> 2
}

/// All parts, in the order in which they are made: the rules come last, when the table is whole.
pub fn parts(config: &Config) -> Result<Vec<Part>, String> {
    let mut parts = settings(config)?;
    parts.push(Part::Link(config.device.value.clone()));
    parts.extend(routes(config));
    parts.extend(neighbour(config)?);
    parts.push(rule_to_service(config));
    parts.extend(rules_of_servers(config)?);
    Ok(parts)
}

/// The device carries packets of other hosts, and an answer may come in where the host wouldn't send. 2 is the value that is in effect
/// whatever `all` has.
fn settings(config: &Config) -> Result<Vec<Part>, String> {
    let forward = Part::Setting { name: "net/ipv4/ip_forward".into(), value: "1" };
    let of_servers: Result<BTreeSet<String>, String> =
        config.servers.iter().map(|server| device_to(server.value.at)).collect();
    let devices = std::iter::once(config.device.value.clone()).chain(of_servers?);
    let loose = devices.map(|device| Part::Setting {
        name: format!("net/ipv4/conf/{device}/rp_filter"),
        value: "2",
    });
    Ok(std::iter::once(forward).chain(loose).collect())
}

/// The table leads to the device. While there is none, packets are dropped: by another way a server's answer would reach the client with
/// the server's own address, and be answered by a reset. What goes to a server looks on in the other tables.
///
/// The table main has a route too, for what has no ports: ARP, or a ping, which the device refuses. Its metric is the service's own, so
/// that two services may have one address.
fn routes(config: &Config) -> Vec<Part> {
    let (device, table) = (&config.device.value, table(config));
    let addresses: BTreeSet<Ipv4Addr> =
        config.servers.iter().map(|server| *server.value.at.ip()).collect();
    let own = [format!("default dev {device} metric 1"), "blackhole default metric 2".into()];
    let own = own.into_iter().chain(addresses.iter().map(|address| format!("throw {address}")));
    let own = own.map(|route| Part::Route { table: Some(table), route });
    let main = format!("{} dev {device} metric {table}", config.service.value.0.ip());
    own.chain([Part::Route { table: None, route: main }]).collect()
}

/// Where the virtual address is in a network that the host is in, its neighbours ask for it by ARP. The host answers for this address
/// alone; the setting `proxy_arp` would let it answer for all that it has a route to.
fn neighbour(config: &Config) -> Result<Option<Part>, String> {
    let address = *config.service.value.0.ip();
    if host::is_own(address)? {
        return Err(format!(
            "{}: {address} is an address of this host itself: packets to it are taken by the host, and don't come to the device; remove \
             it from its interface",
            config.service.place
        ));
    }
    let told = host::ip(&format!("route show to match {address}"))?;
    let device = network_of(&told, &config.device.value);
    Ok(device.map(|device| Part::Neighbour(format!("{address} dev {device}"))))
}

/// The device of the narrowest network among routes, where its hosts are neighbours; routes to the service itself don't count.
fn network_of(routes: &str, own_device: &str) -> Option<String> {
    let is_other = |line: &&str| {
        !line.contains(&format!(" dev {own_device} ")) && !line.contains(&format!(" proto {MARK} "))
    };
    let length =
        |line: &&str| line.split([' ', '/']).nth(1).and_then(|length| length.parse::<u8>().ok());
    let routes = routes.lines().filter(is_other).filter(|line| length(line).is_some());
    let narrowest = routes.max_by_key(length)?;
    let by_router = narrowest.contains(" via ");
    host::word_after(narrowest, "dev").filter(|_| !by_router)
}

fn rule_to_service(config: &Config) -> Part {
    let (at, protocol) = config.service.value;
    let (address, port, protocol) = (at.ip(), at.port(), protocol_name(protocol));
    Part::Rule(format!(
        "from all to {address} ipproto {protocol} dport {port} lookup {}",
        table(config)
    ))
}

/// Only what comes from the server's own side: nobody else's packets with its address are taken for its answers.
fn rules_of_servers(config: &Config) -> Result<Vec<Part>, String> {
    let rule = |at: SocketAddrV4| {
        Ok(Part::Rule(format!("{}{}", rule_of_server(config, at)?, table(config))))
    };
    config.servers.iter().map(|server| rule(server.value.at)).collect()
}

/// The rule for a server's answers, to the table's number.
pub fn rule_of_server(config: &Config, at: SocketAddrV4) -> Result<String, String> {
    let (address, port, device) = (at.ip(), at.port(), device_to(at)?);
    let protocol = protocol_name(config.service.value.1);
    Ok(format!("from {address} iif {device} ipproto {protocol} sport {port} lookup "))
}

fn device_to(server: SocketAddrV4) -> Result<String, String> {
    host::device_to(*server.ip())
        .map_err(|complaint| format!("expected a route to server {server}, got: {complaint}"))
}
