//! The network of the rig: a client, the director and the servers, each in a namespace of its own, joined by veth pairs.

use crate::lab::{wait_for, Failure, Lab};
use programs::{IP, SS, SYSCTL};
use std::time::Duration;

/// The virtual address, at which clients reach the service.
pub const VIRTUAL: &str = "192.0.2.10";
/// The port of the service.
pub const VIRTUAL_PORT: &str = "5432";
/// The port of PostgreSQL at the servers.
pub const SERVER_PORT: &str = "6432";
/// The client's address.
pub const CLIENT: &str = "10.0.0.1";
/// The director's address on the client's link.
pub const DIRECTOR: &str = "10.0.0.2";
/// The director's TUN device.
pub const DEVICE: &str = "nid0";

/// The table of the routes for what the servers send.
const TABLE: &str = "100";
/// How long the last packets of a connection may take.
const PATIENCE: Duration = Duration::from_secs(30);

/// The namespace of a server, and its interface at the director.
pub fn server(k: usize) -> String {
    format!("s{k}")
}

/// The address of a server behind the director.
pub fn balanced(k: usize) -> String {
    format!("10.{}.0.5", k + 1)
}

/// The address of a server that is reached without the director.
pub fn direct(k: usize) -> String {
    format!("10.{}.0.6", k + 1)
}

/// The director's address on that server's link.
pub fn gateway(k: usize) -> String {
    format!("10.{}.0.2", k + 1)
}

/// Makes the namespaces, the links between them, addresses and routes.
pub fn make(lab: &Lab, servers: usize) -> Result<(), Failure> {
    add_namespace(lab, "director")?;
    // The default goes to devices made later, the TUN device too: packets of other addresses pass through it.
    let settings = [
        "net.ipv4.ip_forward=1",
        "net.ipv4.conf.all.rp_filter=0",
        "net.ipv4.conf.default.rp_filter=0",
    ];
    lab.output("director", SYSCTL, &[&["-q", "-w"], &settings[..]].concat())?;
    join(lab, "client", CLIENT, DIRECTOR)?;
    for k in 0..servers {
        join(lab, &server(k), &balanced(k), &gateway(k))?;
        let address = format!("{}/24", direct(k));
        lab.output(&server(k), IP, &["address", "add", &address, "dev", "eth0"])?;
    }
    Ok(())
}

/// Makes the director's device, which then stays when the director ends, with its routes.
pub fn add_device(lab: &Lab) -> Result<(), Failure> {
    lab.output("director", IP, &["tuntap", "add", "dev", DEVICE, "mode", "tun"]).map(|_| ())
}

/// Routes for programs that are measured one after another in the director's place, with a configuration or without: brings the device
/// up, and leads to it what goes to the virtual address and what servers send back from their balanced addresses.
pub fn attach(lab: &Lab, servers: usize) -> Result<(), Failure> {
    let ip = |args: &[&str]| lab.output("director", IP, args).map(|_| ());
    ip(&["link", "set", DEVICE, "up"])?;
    ip(&["route", "replace", VIRTUAL, "dev", DEVICE])?;
    ip(&["route", "replace", "default", "dev", DEVICE, "table", TABLE])?;
    let rules = lab.output("director", IP, &["rule", "list"])?;
    for k in 0..servers {
        // The rules outlive a director, its routes don't.
        if !rules.contains(&format!("from {} ", balanced(k))) {
            ip(&["rule", "add", "iif", &server(k), "from", &balanced(k), "lookup", TABLE])?;
        }
    }
    Ok(())
}

/// Lets the client's and the servers' TCP send nothing again for 10 s, nor a probe after some milliseconds: for links that lose
/// nothing. On a busy machine a FIN that is sent again can find its receiver closed, and is answered by an RST, which ends the
/// connection at the director in a moment that neither side can tell.
pub fn send_once(lab: &Lab, servers: usize) -> Result<(), Failure> {
    let servers = (0..servers).map(|k| (server(k), gateway(k)));
    for (name, via) in servers.chain([("client".into(), DIRECTOR.into())]) {
        lab.output(&name, SYSCTL, &["-q", "-w", "net.ipv4.tcp_early_retrans=0"])?;
        let route = ["route", "change", "default", "via", &via, "rto_min", "10s"];
        lab.output(&name, IP, &route)?;
    }
    Ok(())
}

fn add_namespace(lab: &Lab, name: &str) -> Result<(), Failure> {
    crate::lab::output(IP.command().args(["netns", "add", &lab.namespace(name)]))?;
    lab.output(name, IP, &["link", "set", "lo", "up"])?;
    Ok(())
}

/// Makes that namespace with one interface, eth0, whose other end at the director is called like the namespace.
fn join(lab: &Lab, name: &str, address: &str, director: &str) -> Result<(), Failure> {
    add_namespace(lab, name)?;
    let theirs = lab.namespace(name);
    let ip = |place: &str, args: &[&str]| lab.output(place, IP, args).map(|_| ());
    ip(
        "director",
        &["link", "add", name, "type", "veth", "peer", "name", "eth0", "netns", &theirs],
    )?;
    ip("director", &["address", "add", &format!("{director}/24"), "dev", name])?;
    ip("director", &["link", "set", name, "up"])?;
    ip(name, &["address", "add", &format!("{address}/24"), "dev", "eth0"])?;
    ip(name, &["link", "set", "eth0", "up"])?;
    ip(name, &["route", "add", "default", "via", director])
}

/// The client's sockets, seen from that namespace, that are not over yet: all, or those of one port.
pub fn live_sockets(lab: &Lab, name: &str, client_port: Option<u16>) -> Result<usize, Failure> {
    let end = client_port.map_or(CLIENT.to_string(), |port| format!("{CLIENT}:{port}"));
    let found = lab.output(name, SS, &["-Htan", &format!("( src {end} or dst {end} )")])?;
    Ok(found.lines().filter(|line| !line.starts_with("TIME-WAIT")).count())
}

/// Waits until a connection that its client has ended is over at both ends: its last packet is then through the director.
pub fn wait_until_closed(lab: &Lab, server_number: usize, client_port: u16) -> Result<(), Failure> {
    let what = format!("the end of the connection from port {client_port}");
    wait_for(&what, PATIENCE, || {
        let at_server = live_sockets(lab, &server(server_number), Some(client_port))?;
        let at_client = live_sockets(lab, "client", Some(client_port))?;
        Ok((at_server + at_client == 0).then_some(()))
    })
}
