//! What operators and health checks say to the daemon, rightly and wrongly.

use crate::clients::{lines_of, Ended};
use crate::daemon::PATIENCE;
use crate::model::CONFIG;
use crate::service::Service;
use reference::packets::{RST, SYN};
use std::fs;

/// Connections in four states, and what is told of them.
pub fn looks(service: &mut Service) {
    let servers = [1, 2, 3, 4].map(|port| service.open(port));
    service.finish(1);
    let opening = service.send(5, SYN);
    let of = |server: usize| servers.iter().chain([&opening]).filter(|&&at| at == server).count();
    let (code, status, _) = service.control(&["status"]);
    assert_eq!(code, Some(0));
    assert!(status.contains(", 5 of 64 slots used, clock "), "{status}");
    let filter = "[.used, (.servers | map(.connections) | add), (.servers | map(.finished) | add)]";
    assert_eq!(service.json(&["status", "--json"], filter), "[5,5,1]");
    let both = ".servers | all(.open + .finished == .connections)";
    assert_eq!(service.json(&["status", "--json"], both), "true");
    for (server, at) in ["10.1.0.5:6432", "10.2.0.5:6432"].iter().enumerate() {
        let count = format!("{}\n", of(server));
        assert_eq!(service.said(&["count", &server.to_string()]), count);
        assert_eq!(service.said(&["count", at]), count);
        let counted = service.json(&["count", at, "--json"], ".connections");
        let listed = service.json(&["connections", at, "--json"], ".connections | length");
        assert_eq!((counted, listed), (of(server).to_string(), of(server).to_string()));
        let rows = service.said(&["connections", at]);
        assert_eq!(rows.lines().count(), 1 + of(server));
        assert!(rows.lines().skip(1).all(|row| row.contains(at)), "{rows}");
    }
    let states = "[.connections[] | {(.client): .state}] | add | [.[\"10.0.0.1:1\"], .[\"10.0.0.1:2\"], .[\"10.0.0.1:5\"]]";
    let found = service.json(&["connections", "--json"], states);
    assert_eq!(found, r#"["finished","open","opening"]"#);
    let sorted = "[.connections[].server] | . == sort";
    assert_eq!(service.json(&["connections", "--json"], sorted), "true");
}

/// A watch tells that a connection is finished, though none has come or gone, and that a server is down.
pub fn watched(service: &mut Service) {
    let server = service.open(50);
    let mut watch = Ended(service.command(&["watch"]).spawn().unwrap());
    let lines = lines_of(watch.0.stdout.take().unwrap());
    let row = format!("{server}       10.");
    let next = || {
        let mut rows = std::iter::repeat_with(|| lines.recv_timeout(PATIENCE).expect("no table"));
        rows.find(|line| line.starts_with(&row)).unwrap_or_default()
    };
    assert!(next().contains("  1            1     0         in service"));
    service.finish(50);
    assert!(next().contains("  1            0     1         in service"));
    service.said(&["down", &server.to_string()]);
    assert!(next().ends_with("  1            0     1         down"));
    service.said(&["up", &server.to_string()]);
    assert!(next().ends_with("  1            0     1         in service"));
    drop(watch);
    service.said(&["flush", &server.to_string()]);
    assert!(service.link.receive(PATIENCE).is_some());
}

/// What is refused by the director, and what isn't even said to it: nothing is changed by either.
pub fn wrong_words(service: &mut Service) {
    let said = |service: &Service| {
        service.json(&["status", "--json"], "[.servers[] | [.weight, .down, .connections]]")
    };
    let before = said(service);
    must_be_refused(service);
    must_be_wrong(service);
    assert_eq!(said(service), before);
}

fn must_be_refused(service: &mut Service) {
    let none = "there is no server of that number (5): the servers are 0 to 1, got";
    let other = "none of the servers 0 to 1 is";
    for (words, complaint) in [
        (&["count", "2"][..], &format!("{none} 2")),
        (&["count", "10.1.0.5:6433", "--json"], &format!("{other} 10.1.0.5:6433")),
        (&["connections", "2"], &format!("{none} 2")),
        (&["down", "2"], &format!("{none} 2")),
        (&["up", "10.9.0.5:6432"], &format!("{other} 10.9.0.5:6432")),
        (&["flush", "9"], &format!("{none} 9")),
        (&["left", "9"], &format!("{none} 9")),
        (&["wait", "9"], &format!("{none} 9")),
        (&["drain", "9", "--wait", "1"], &format!("{none} 9")),
        (&["weights", "0=9", "2=1"], &format!("{none} 2")),
        (&["weights", "0=9", "0=8"], &"expected each server once, got server 0 twice".to_string()),
        (&["disconnect", "10.0.0.1:999"], &"there is no connection of 10.0.0.1:999".to_string()),
    ] {
        must_complain(service, words, 1, complaint);
        service.daemon.await_log(&format!("refused a command of user 0: {complaint}\n"));
    }
}

fn must_be_wrong(service: &Service) {
    let address = "expected an IPv4 address and a port, as 192.0.2.10:5432";
    for (words, complaint) in [
        (&["weights", "1=9", "0=many"][..], "expected a weight, 0 to 65535, got \"many\""),
        (&["weights"], "expected `weights N=W ..`, got \"weights\""),
        (&["disconnect", "1"], &format!("{address}, got \"1\"")),
        (&["flush"], "expected `flush N`, got \"flush\""),
        (&["down", "0", "1"], "expected `down N`, got \"down 0 1\""),
        (&["status", "--jsno"], "expected `status [--json]`, got \"status --jsno\""),
    ] {
        must_complain(service, words, 2, complaint);
    }
}

fn must_complain(service: &Service, words: &[&str], code: i32, complaint: &str) {
    let expected = (Some(code), String::new(), format!("nidhaagufctl: {complaint}\n"));
    assert_eq!(service.control(words), expected, "{words:?}");
}

/// Several weights at once, by number and by address.
pub fn weights(service: &mut Service) {
    let told = "\
server 1 (10.2.0.5:6432): weight 0, 0 connections, may be unplugged
server 0 (10.1.0.5:6432): weight 65535, 0 connections, in service
";
    assert_eq!(service.said(&["weights", "10.2.0.5:6432=0", "0=65535"]), told);
    service.daemon.await_log("<5>nidhaagufd: server 1 (10.2.0.5:6432): weight 1 -> 0, by user 0\n");
    service
        .daemon
        .await_log("<5>nidhaagufd: server 0 (10.1.0.5:6432): weight 2 -> 65535, by user 0\n");
    assert!((100..110).all(|port| service.open(port) == 0));
    (100..110).for_each(|port| service.reset(port));
    service.said(&["weights", "0=2", "1=1"]);
}

/// Connections that are ended by command: the counts fall, and the metrics and the log tell by whom.
pub fn ended(service: &mut Service) {
    let ended = |service: &Service, server: usize| {
        let at = ["10.1.0.5:6432", "10.2.0.5:6432"][server];
        let labels = format!("server=\"{server}\",address=\"{at}\",by=\"operator\"");
        service.count(&format!("nidhaaguf_endings_total{{{labels}}}"))
    };
    let servers: Vec<usize> = (200..206).map(|port| service.open(port)).collect();
    let of = |server: usize| servers.iter().filter(|&&at| at == server).count() as u64;
    let (first, at) = (servers[0], ["10.1.0.5:6432", "10.2.0.5:6432"][servers[0]]);
    let told = format!("client 10.0.0.1:200 disconnected from server {first} ({at})");
    assert_eq!(service.said(&["disconnect", "10.0.0.1:200"]), format!("{told}\n"));
    service.daemon.await_log(&format!("<5>nidhaagufd: {told}, by user 0\n"));
    assert_eq!(service.said(&["count", at]), format!("{}\n", of(first) - 1));
    assert_eq!(ended(service, first), 1);
    let (code, _, log) = service.control(&["disconnect", "10.0.0.1:200"]);
    assert_eq!(
        (code, log.as_str()),
        (Some(1), "nidhaagufctl: there is no connection of 10.0.0.1:200\n")
    );
    for server in [0, 1] {
        let left = of(server) - u64::from(server == first);
        let flushed = format!("{left} connections flushed");
        let out = service.said(&["flush", &server.to_string()]);
        assert!(out.lines().next().unwrap().ends_with(&flushed), "{out}");
        service.daemon.await_log(&format!("{flushed}, by user 0\n"));
        assert_eq!(service.said(&["count", &server.to_string()]), "0\n");
        assert_eq!(ended(service, server), of(server));
    }
    // each server has got a reset of its client
    let sent = std::iter::from_fn(|| service.link.receive(PATIENCE)).take(servers.len());
    assert_eq!(sent.filter(|packet| packet[33] == RST).count(), servers.len());
    assert_eq!(service.json(&["connections", "--json"], ".connections | length"), "0");
}

/// A health check and an operator say what they like: neither undoes the other, nor does a reload or a take-over.
pub fn down_and_up(service: &mut Service) {
    let said = |service: &Service| {
        service.json(&["status", "--json"], ".servers[0] | \"\\(.weight) \\(.state)\"")
    };
    let all_elsewhere = |service: &Service, ports: std::ops::Range<u16>| {
        assert!(ports.clone().all(|port| service.open(port) == 1));
        ports.for_each(|port| service.reset(port));
    };
    let (_, out, _) = service.control(&["down", "0"]);
    assert_eq!(out, "server 0 (10.1.0.5:6432): weight 2, 0 connections, down\n");
    service.daemon.await_log("<5>nidhaagufd: server 0 (10.1.0.5:6432): down, by user 0\n");
    all_elsewhere(service, 300..306);
    service.said(&["weight", "0", "7"]);
    all_elsewhere(service, 306..312);
    service.take_over();
    assert_eq!(said(service), "7 down");
    all_elsewhere(service, 312..318);
    fs::write(service.place.file("nidhaaguf.conf"), CONFIG.replace("weight 2", "weight 9"))
        .unwrap();
    assert_eq!(service.said(&["reload"]), "server 0 (10.1.0.5:6432): weight 7 -> 9\n");
    assert_eq!(said(service), "9 down");
    all_elsewhere(service, 318..324);
    service.said(&["drain", "0"]);
    assert_eq!(said(service), "0 down, may be unplugged");
    service.said(&["up", "0"]);
    service.daemon.await_log("<5>nidhaagufd: server 0 (10.1.0.5:6432): up, by user 0\n");
    assert_eq!(said(service), "0 may be unplugged");
    all_elsewhere(service, 324..330);
    service.said(&["down", "0"]);
    service.said(&["weight", "0", "2"]);
    service.said(&["up", "0"]);
    assert_eq!(said(service), "2 in service");
    let servers: Vec<usize> = (330..336).map(|port| service.open(port)).collect();
    assert!(servers.contains(&0), "{servers:?}");
    (330..336).for_each(|port| service.reset(port));
}
