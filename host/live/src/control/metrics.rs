//! The counts in the text form of Prometheus.

use crate::book::{ConnectionState, Ending, ServerCounts};
use crate::counters::{CHANGES, WAYS};
use crate::device;
use crate::instance::Instance;
use nidhaaguf::Refusal;
use std::fmt::{Display, Write};

/// All metrics.
pub fn text(instance: &Instance) -> String {
    let mut out = String::new();
    add_servers(&mut out, instance);
    add_connections(&mut out, instance);
    add_endings(&mut out, instance);
    add_table(&mut out, instance);
    add_packets(&mut out, instance);
    add_totals(&mut out, instance);
    out
}

/// The labels of each server, without their braces.
fn labels(instance: &Instance) -> Vec<String> {
    let servers = instance.settings().servers.iter().enumerate();
    let labels = |(number, at)| format!("server=\"{number}\",address=\"{at}\"");
    servers.map(|(number, server)| labels((number, server.at))).collect()
}

fn add_servers(out: &mut String, instance: &Instance) {
    let labels = labels(instance);
    let count = |server: usize| u64::from(instance.director().count(server).unwrap_or(0));
    let weight = |server: usize| u64::from(instance.weight(server).unwrap_or(0));
    let down = |server: usize| u64::from(instance.is_down(server));
    let metrics: [(&str, &str, &dyn Fn(usize) -> u64); 3] = [
        ("server_connections", "Connections of a server, in any state.", &count),
        (
            "weight",
            "Weight of a server, also while it is down; 0 gets no new connections.",
            &weight,
        ),
        ("down", "1 where a server is said to be down, so that it gets no new connections.", &down),
    ];
    for (name, help, value) in metrics {
        head(out, name, "gauge", help);
        add_each(out, name, &labels, value);
    }
}

/// A sample for each server.
fn add_each(out: &mut String, name: &str, labels: &[String], value: &dyn Fn(usize) -> u64) {
    for (server, labels) in labels.iter().enumerate() {
        sample(out, name, &format!("{{{labels}}}"), value(server));
    }
}

fn add_connections(out: &mut String, instance: &Instance) {
    let labels = labels(instance);
    let mut found = vec![[0_u64; ConnectionState::ALL.len()]; labels.len()];
    for seen in instance.connections() {
        found[seen.connection.server][seen.state as usize] += 1;
    }
    head(out, "connections", "gauge", "Connections of a server, by state.");
    for (labels, found) in labels.iter().zip(found) {
        add_states(out, labels, found);
    }
}

fn add_states(out: &mut String, labels: &str, found: [u64; ConnectionState::ALL.len()]) {
    for (state, connections) in ConnectionState::ALL.into_iter().zip(found) {
        let labels = format!("{{{labels},state=\"{}\"}}", state.name());
        sample(out, "connections", &labels, connections);
    }
}

fn add_endings(out: &mut String, instance: &Instance) {
    let (labels, servers) = (labels(instance), instance.book().servers());
    head(out, "openings_total", "counter", "Connections that were opened, by server.");
    add_each(out, "openings_total", &labels, &|server| servers[server].opened);
    head(out, "endings_total", "counter", "Connections that have ended, by server and by whom.");
    for (labels, counts) in labels.iter().zip(servers) {
        add_endings_of(out, labels, counts);
    }
    let help = "Connections that their server has ended within a second of their opening.";
    head(out, "early_endings_total", "counter", help);
    add_each(out, "early_endings_total", &labels, &|server| servers[server].early);
}

fn add_endings_of(out: &mut String, labels: &str, counts: &ServerCounts) {
    for ending in Ending::ALL {
        let labels = format!("{{{labels},by=\"{}\"}}", ending.name());
        sample(out, "endings_total", &labels, counts.ended_by(ending));
    }
}

fn add_table(out: &mut String, instance: &Instance) {
    let director = instance.director();
    head(out, "slots", "gauge", "Connections that there is room for.");
    sample(out, "slots", "", director.slots());
    head(out, "slots_used", "gauge", "Connections that there are.");
    sample(out, "slots_used", "", director.used());
    head(out, "clock_seconds", "gauge", "The clock that the connections are judged by.");
    sample(out, "clock_seconds", "", director.clock());
}

fn add_packets(out: &mut String, instance: &Instance) {
    let counters = instance.counters();
    head(out, "packets_total", "counter", "Accepted packets, by what they did.");
    for (way, way_name) in WAYS {
        for (change, name) in CHANGES {
            let labels = format!("{{way=\"{way_name}\",answer=\"{name}\"}}");
            sample(out, "packets_total", &labels, counters.packets.accepted(way, change));
        }
    }
    head(out, "refusals_total", "counter", "Refused packets, by the number of the refusal.");
    for (way, way_name) in WAYS {
        for refusal in Refusal::ALL.into_iter().filter(|refusal| refusal.is_of_packets()) {
            let (number, reason) = (refusal.number(), refusal.words());
            let labels = format!("{{way=\"{way_name}\",number=\"{number}\",reason=\"{reason}\"}}");
            sample(out, "refusals_total", &labels, counters.refused(way, refusal));
        }
    }
}

fn add_totals(out: &mut String, instance: &Instance) {
    let counters = instance.counters();
    for (name, help, value) in [
        (
            "ipv6_packets_total",
            "Packets of IPv6 on the device, dropped; they are no refusals.",
            counters.ipv6.iter().sum(),
        ),
        (
            "resets_sent_total",
            "Resets sent in answer to packets of unknown connections.",
            counters.resets_sent,
        ),
        (
            "resets_unsent_total",
            "Resets not sent, since as many were sent in that second as may be.",
            counters.resets_unsent,
        ),
        ("write_failures_total", "Packets that the device did not take.", counters.write_failures),
        (
            "idle_removed_total",
            "Connections removed because they were idle.",
            counters.idle_removed,
        ),
    ] {
        head(out, name, "counter", help);
        sample(out, name, "", value);
    }
    let Some((device, drops)) =
        instance.device().and_then(|name| Some((name, device::drops(name)?)))
    else {
        return;
    };
    let name = "device_drops_total";
    head(out, name, "counter", "Packets that the device's queue had no room for, by the kernel.");
    sample(out, name, &format!("{{device=\"{device}\"}}"), drops);
}

fn head(out: &mut String, name: &str, kind: &str, help: &str) {
    // writing to a string doesn't fail
    let _ = writeln!(out, "# HELP nidhaaguf_{name} {help}\n# TYPE nidhaaguf_{name} {kind}");
}

fn sample(out: &mut String, name: &str, labels: &str, value: impl Display) {
    let _ = writeln!(out, "nidhaaguf_{name}{labels} {value}");
}
