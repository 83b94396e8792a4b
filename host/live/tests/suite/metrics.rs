//! The metrics beside the library's own counts.

use crate::book::happen;
use crate::support::*;
use live::control::metrics;
use live::device::drops_in;
use live::instance::Instance;
use live::policy::{Policy, Unknown};
use nidhaaguf::{Change, Protocol, Refusal, Way};
use random::Rng;
use reference::packets::{self, ACK, FIN, RST};
use std::time::Duration;

/// The sum of the samples whose name and labels have all these parts.
fn sum(text: &str, name: &str, parts: &[&str]) -> u64 {
    let begins = [format!("nidhaaguf_{name} "), format!("nidhaaguf_{name}{{")];
    let of_name = |line: &&str| begins.iter().any(|begin| line.starts_with(begin));
    let fits = |line: &&str| parts.iter().all(|part| line.contains(part));
    let lines = text.lines().filter(of_name).filter(fits);
    lines.map(|line| line.rsplit_once(' ').unwrap().1.parse::<u64>().unwrap()).sum()
}

/// Each total is the library's.
fn must_agree(instance: &Instance) {
    let (text, director) = (metrics::text(instance), instance.director());
    let packets = &instance.counters().packets;
    let sum = |name, parts: &[&str]| sum(&text, name, parts);
    for server in 0..3 {
        let count = u64::from(director.count(server).unwrap());
        let label = format!("server=\"{server}\"");
        assert_eq!(sum("connections", &[&label]), count);
        assert_eq!(sum("server_connections", &[&label]), count);
        assert_eq!(sum("openings_total", &[&label]) - sum("endings_total", &[&label]), count);
        let weight = u64::from(director.weight(server).unwrap());
        let up = 1 - sum("down", &[&label]);
        assert_eq!(sum("weight", &[&label]) * up, weight);
    }
    assert_eq!(sum("connections", &[]), u64::from(director.used()));
    assert_eq!(sum("openings_total", &[]), packets.accepted(Way::Inbound, Change::Opened));
    for (by, way) in [("by=\"client\"", Way::Inbound), ("by=\"server\"", Way::Outbound)] {
        assert_eq!(sum("endings_total", &[by]), packets.accepted(way, Change::Ended));
    }
    assert_eq!(sum("endings_total", &["by=\"idle\""]), sum("idle_removed_total", &[]));
    let malformed =
        [Way::Inbound, Way::Outbound].map(|way| packets.refused(way, Refusal::MalformedHeader));
    let told = sum("refusals_total", &["number=\"6\""]) + sum("ipv6_packets_total", &[]);
    assert_eq!(told, malformed.iter().sum());
}

#[test]
fn totals_are_the_library_s() {
    let mut instance = instance_of(&format!("{CONFIG}slots 9\n"));
    instance.set_policy(Policy { unknown: Unknown::Reset(1), opening_timeout: 29 });
    let (mut random, mut second) = (Rng::new(28), 0);
    for _ in 0..3_000 {
        happen(&mut random, &mut instance, &mut second, Protocol::Tcp);
        must_agree(&instance);
    }
    let text = metrics::text(&instance);
    // else what happens isn't what it is meant to be
    for name in
        ["ipv6_packets_total", "resets_sent_total", "resets_unsent_total", "early_endings_total"]
    {
        assert!(sum(&text, name, &[]) > 5, "{text}");
    }
    for by in ["client", "server", "idle", "operator", "opening-timeout", "renewed"] {
        assert!(sum(&text, "endings_total", &[&format!("by=\"{by}\"")]) > 0, "{text}");
    }
}

/// Each of the new numbers, written out.
#[test]
fn connections_and_endings_are_told() {
    let mut instance = instance();
    instance.set_policy(Policy { unknown: Unknown::Reset(1), opening_timeout: 0 });
    let of_client = |port, flags| packets::tcp((0x0A00_0001, port), VIRTUAL, flags).build();
    let of_server = |port, flags| packets::tcp(SERVER, (0x0A00_0001, port), flags).build();
    // 1, 4, 7, 10 and 13 at server 0
    (1..=15).for_each(|port| assert!(pass(&mut instance, &syn(port)).is_some()));
    for packet in [
        of_client(4, ACK),
        of_client(7, FIN | ACK),
        of_server(7, FIN | ACK),
        of_server(10, RST),
        of_client(13, RST),
    ] {
        assert!(pass(&mut instance, &packet).is_some());
    }
    assert_eq!(instance.disconnect("10.0.0.1:2".parse().unwrap()), Some(1));
    instance.set_down(1, true).unwrap();
    // one by the limit, and two that the disconnect has asked for
    (0..4).for_each(|_| drop(pass(&mut instance, &of_client(99, ACK))));
    must_have_lines(&metrics::text(&instance));
}

fn must_have_lines(text: &str) {
    let server = "server=\"0\",address=\"10.1.0.5:6432\"";
    for line in [
        format!("nidhaaguf_connections{{{server},state=\"opening\"}} 1"),
        format!("nidhaaguf_connections{{{server},state=\"open\"}} 1"),
        format!("nidhaaguf_connections{{{server},state=\"client finished\"}} 0"),
        format!("nidhaaguf_connections{{{server},state=\"finished\"}} 1"),
        format!("nidhaaguf_server_connections{{{server}}} 3"),
        format!("nidhaaguf_openings_total{{{server}}} 5"),
        format!("nidhaaguf_endings_total{{{server},by=\"client\"}} 1"),
        format!("nidhaaguf_endings_total{{{server},by=\"server\"}} 1"),
        format!("nidhaaguf_endings_total{{{server},by=\"operator\"}} 0"),
        format!("nidhaaguf_early_endings_total{{{server}}} 1"),
        "nidhaaguf_endings_total{server=\"1\",address=\"10.2.0.5:6432\",by=\"operator\"} 1".into(),
        "nidhaaguf_down{server=\"1\",address=\"10.2.0.5:6432\"} 1".into(),
        "nidhaaguf_weight{server=\"1\",address=\"10.2.0.5:6432\"} 1".into(),
        "nidhaaguf_resets_sent_total 3".into(),
        "nidhaaguf_resets_unsent_total 1".into(),
    ] {
        assert!(text.lines().any(|found| found == line), "{line}\nis missing in\n{text}");
    }
}

/// Noise of IPv6 is no refusal, in the metrics and in the log; other headers of a wrong version are.
#[test]
fn ipv6_is_counted_apart() {
    let mut instance = instance();
    let mut noise = vec![0x60, 0, 0, 0, 0, 8, 58, 255];
    noise.resize(48, 0);
    for packet in [&noise[..], &[0x6F], &[0x50; 40], &[0x45; 10], &[0x65; 19]] {
        assert_eq!(pass(&mut instance, packet), None);
    }
    // to where IPv4 would have the virtual address: it is taken as inbound
    noise[16..20].copy_from_slice(&VIRTUAL.0.to_be_bytes());
    assert_eq!(pass(&mut instance, &noise), None);
    let text = metrics::text(&instance);
    assert_eq!(sum(&text, "ipv6_packets_total", &[]), 4);
    assert_eq!(sum(&text, "refusals_total", &["inbound", "number=\"6\""]), 1);
    assert_eq!(sum(&text, "refusals_total", &["outbound", "number=\"6\""]), 1);
    assert_eq!(sum(&text, "refusals_total", &[]), 2);
    let line = instance.counters().to_string();
    assert!(
        line.contains(" 0 ended, 1 refused; outbound ") && line.contains("; 4 of IPv6; "),
        "{line}"
    );
}

/// The column of the kernel's table, of that device alone; no sample where it can't be read.
#[test]
fn drops_of_the_device() {
    let text = "Inter-|   Receive |  Transmit\n face |bytes    packets errs drop\n    \
                lo: 1 2 3 4 5 6 7 8 9 10 11 12 13 14 15 16\n  nid0:0 0 0 0 0 0 0 0 5 6 7 42 9 9 9 9\n";
    assert_eq!((drops_in(text, "nid0"), drops_in(text, "lo")), (Some(42), Some(12)));
    assert_eq!(
        (drops_in(text, "nid"), drops_in(text, "nid01"), drops_in("nid0: 1 2\n", "nid0")),
        (None, None, None)
    );
    let told = |name| {
        metrics::text(&instance().with_device(name))
            .contains("nidhaaguf_device_drops_total{device=")
    };
    assert!(told("lo") && !told("no-such-device"));
    let mut instance = instance().with_device("lo");
    instance.tick(Duration::from_secs(1));
    assert!(metrics::text(&instance).ends_with('\n'));
}
