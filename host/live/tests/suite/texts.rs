//! The texts of status and metrics.

use crate::json::jq;
use crate::support::*;
use live::control::json::Json;
use live::control::load::Load;
use live::control::{metrics, status};
use live::instance::Instance;
use nidhaaguf::Trace;
use std::net::Shutdown;
use std::os::unix::net::UnixDatagram;
use std::time::Duration;

#[test]
fn the_status_is_a_table() {
    let mut instance = instance();
    for port in 1..=7 {
        assert!(pass(&mut instance, &syn(port)).is_some());
    }
    instance.set_weight(1, 0).unwrap();
    instance.tick(Duration::from_secs(12));
    let lines = "\
number  address         weight  connections  open  finished  state
0       10.1.0.5:6432   1       3            3     0         in service
1       10.2.0.5:6432   0       2            2     0         draining
2       10.30.0.5:6432  20      2            2     0         in service
";
    let summary = "service 192.0.2.10:5432 tcp, least-connection, 7 of 4096 slots used";
    assert_eq!(status::text(&instance), format!("{summary}, clock 12\n{lines}"));
    let before = status::timeless(&instance);
    instance.tick(Duration::from_secs(13));
    assert_eq!(status::timeless(&instance), before);
    instance.set_weight(1, 1).unwrap();
    assert_ne!(status::timeless(&instance), before);
}

#[test]
fn states() {
    let load = Load::of(&instance(), 0).unwrap();
    let state =
        |weight, is_down, connections| Load { weight, is_down, connections, ..load }.state();
    assert_eq!(state(1, false, 0), "in service");
    assert_eq!(state(65_535, false, 9), "in service");
    assert_eq!(state(0, false, 1), "draining");
    assert_eq!(state(0, false, 0), "may be unplugged");
    assert_eq!(state(1, true, 0), "down");
    assert_eq!(state(1, true, 9), "down");
    assert_eq!(state(0, true, 1), "down, draining");
    assert_eq!(state(0, true, 0), "down, may be unplugged");
}

#[test]
fn only_a_server_that_is_up_and_has_a_weight_is_in_service() {
    let load = Load::of(&instance(), 0).unwrap();
    for (weight, is_down, expected) in
        [(1, false, true), (0, false, false), (1, true, false), (0, true, false)]
    {
        assert_eq!(Load { weight, is_down, ..load }.is_in_service(), expected);
    }
}

/// Another program must read back what was written.
#[test]
fn json_strings_are_escaped() {
    let text = "a\"b\\c/d\n\t\u{1}\u{1f}\u{7f}\u{e9}\u{1f600}";
    let json = Json::Object(vec![("text", Json::text(text)), ("none", Json::known(None))]);
    let line = format!("{json}\n");
    assert_eq!(jq(&line, ".text | explode | implode"), text);
    assert_eq!(jq(&line, ".none, (.text | length)"), format!("null\n{}", text.chars().count()));
    let nested = Json::Array(vec![Json::Truth(true), Json::from(7_u32), Json::Array(vec![])]);
    assert_eq!(nested.to_string(), "[true,7,[]]");
    assert_eq!(Json::Object(vec![]).to_string(), "{}");
}

#[test]
fn metrics_tell_the_counts() {
    let mut instance = instance();
    for port in [1, 2, 3, 1] {
        assert!(pass(&mut instance, &syn(port)).is_some());
    }
    for length in [30, 3] {
        assert_eq!(pass(&mut instance, &vec![0; length]), None);
    }
    assert_eq!(pass(&mut instance, &with_a_turned_bit(syn(1))), None);
    instance.set_weight(2, 0).unwrap();
    fail_to_write(&mut instance);
    instance.tick(Duration::from_secs(100));
    let text = metrics::text(&instance);
    for line in [
        "nidhaaguf_server_connections{server=\"0\",address=\"10.1.0.5:6432\"} 1",
        "nidhaaguf_server_connections{server=\"2\",address=\"10.30.0.5:6432\"} 1",
        "nidhaaguf_weight{server=\"2\",address=\"10.30.0.5:6432\"} 0",
        "nidhaaguf_slots 4096",
        "nidhaaguf_slots_used 3",
        "nidhaaguf_clock_seconds 100",
        "nidhaaguf_packets_total{way=\"inbound\",answer=\"opened\"} 3",
        "nidhaaguf_packets_total{way=\"inbound\",answer=\"kept\"} 2",
        "nidhaaguf_refusals_total{way=\"inbound\",number=\"6\",reason=\"the packet's IPv4 header is malformed\"} 1",
        "nidhaaguf_refusals_total{way=\"outbound\",number=\"6\",reason=\"the packet's IPv4 header is malformed\"} 1",
        "nidhaaguf_refusals_total{way=\"inbound\",number=\"20\",reason=\"the packet's header checksum is not valid\"} 1",
        "nidhaaguf_refusals_total{way=\"outbound\",number=\"20\",reason=\"the packet's header checksum is not valid\"} 0",
        "nidhaaguf_write_failures_total 1",
        "nidhaaguf_idle_removed_total 0",
    ] {
        assert!(text.lines().any(|found| found == line), "{line}\nis missing in\n{text}");
    }
    instance.tick(Duration::from_secs(900));
    assert!(metrics::text(&instance).contains("\nnidhaaguf_idle_removed_total 3\n"));
}

/// A packet that is accepted, for a device that doesn't take it.
fn fail_to_write(instance: &mut Instance) {
    let (link, device) = UnixDatagram::pair().unwrap();
    link.send(&syn(1)).unwrap();
    link.shutdown(Shutdown::Read).unwrap();
    assert_eq!(instance.serve(&device, &mut Trace::new(1), 1).unwrap().unsent, 1);
}

/// Each refusal that packets can have is told under its number, each way; no other number is.
#[test]
fn metrics_tell_each_refusal_of_packets() {
    let text = metrics::text(&instance());
    for way in ["inbound", "outbound"] {
        let before = format!("nidhaaguf_refusals_total{{way=\"{way}\",number=\"");
        let after = text.lines().filter_map(|line| line.strip_prefix(&before));
        let numbers: Vec<_> = after.map(|line| line.split('"').next().unwrap()).collect();
        assert_eq!(numbers.join(" "), "6 7 8 9 10 11 12 13 14 15 20", "{way}");
    }
}

/// Each metric has its HELP and TYPE once, before its samples, and each sample is a name, labels and a number.
#[test]
fn metrics_are_in_the_text_form() {
    let text = metrics::text(&instance());
    assert!(text.ends_with('\n') && text.is_ascii());
    let mut declared = Vec::new();
    for line in text.lines() {
        if let Some(rest) = line.strip_prefix("# HELP ") {
            declared.push(rest.split(' ').next().unwrap());
            continue;
        }
        if let Some(rest) = line.strip_prefix("# TYPE ") {
            let (name, kind) = rest.split_once(' ').unwrap();
            assert_eq!(declared.last(), Some(&name));
            assert_eq!(kind == "counter", name.ends_with("_total"), "{line}");
            continue;
        }
        let name = line.split(['{', ' ']).next().unwrap();
        assert_eq!(declared.last(), Some(&name), "{line}");
        let (_, value) = line.rsplit_once(' ').unwrap();
        assert!(value.parse::<u64>().is_ok(), "{line}");
        assert_eq!(line.matches('"').count() % 2, 0, "{line}");
    }
    let mut once = declared.clone();
    once.dedup();
    assert_eq!((declared.len(), once), (17, declared));
}
