//! Commands and their answers.

use crate::support::*;
use live::config::flags::Flags;
use live::config::reload::Reload;
use live::config::Config;
use live::control::commands::server_name::ServerName;
use live::control::commands::{Command, Form};
use live::instance::Instance;

fn read(line: &str) -> Result<Command, String> {
    Command::read(&line.split_whitespace().collect::<Vec<_>>())
}

pub fn answer(instance: &mut Instance, line: &str) -> Result<String, String> {
    Ok(read(line)?.answer(instance, &mut reload())?.text.made())
}

/// What the log tells of a command.
fn changes(instance: &mut Instance, line: &str) -> Vec<String> {
    read(line).unwrap().answer(instance, &mut reload()).unwrap().changes
}

/// Of a file that isn't there.
fn reload() -> Reload {
    let config = Config::read(CONFIG, "test.conf", Flags::default()).unwrap();
    Reload::new(Flags { config: Some("/nowhere/at.all".into()), ..Flags::default() }, config)
}

fn weights(instance: &Instance) -> [Option<u16>; 3] {
    [0, 1, 2].map(|server| instance.weight(server))
}

#[test]
fn commands_are_read() {
    let (number, at) = (ServerName::Number, "10.1.0.5:6432".parse().unwrap());
    let address = ServerName::Address(at);
    for (line, command) in [
        ("status", Command::Status(Form::Text)),
        ("status --json", Command::Status(Form::Json)),
        ("weight 3 65535", Command::Weights(vec![(number(3), 65_535)])),
        ("weight 10.1.0.5:6432 0", Command::Weights(vec![(address, 0)])),
        ("weights 0=1", Command::Weights(vec![(number(0), 1)])),
        (
            "weights 2=0 10.1.0.5:6432=65535",
            Command::Weights(vec![(number(2), 0), (address, 65_535)]),
        ),
        ("drain 0", Command::Weights(vec![(number(0), 0)])),
        ("count 12", Command::Count(number(12), Form::Text)),
        ("count 10.1.0.5:6432 --json", Command::Count(address, Form::Json)),
        ("connections", Command::Connections(None, Form::Text)),
        ("connections --json", Command::Connections(None, Form::Json)),
        ("connections 1", Command::Connections(Some(number(1)), Form::Text)),
        ("connections 1 --json", Command::Connections(Some(number(1)), Form::Json)),
        ("down 1", Command::Down(number(1))),
        ("up 10.1.0.5:6432", Command::Up(address)),
        ("disconnect 10.1.0.5:6432", Command::Disconnect(at)),
        ("flush 2", Command::Flush(number(2))),
        ("left 2", Command::Left(number(2))),
        ("watch", Command::Watch),
        ("metrics", Command::Metrics),
        ("reload", Command::Reload),
        ("  help ", Command::Help),
    ] {
        assert_eq!(read(line), Ok(command), "{line}");
    }
}

#[test]
fn wrong_commands_are_told_what_was_expected() {
    let all = "expected a command: status, count, connections, weight, weights, drain, down, up, disconnect, \
               flush, left, watch, metrics, reload or help";
    let server = "expected a server's number or its ADDRESS:PORT";
    for (line, complaint) in [
        ("", format!("{all}, got \"\"")),
        ("stop now", format!("{all}, got \"stop\"")),
        ("STATUS", format!("{all}, got \"STATUS\"")),
        ("a\u{7}\u{fffd}", format!("{all}, got \"a\\u{{7}}\u{fffd}\"")),
        ("reload now", "expected `reload`, got \"reload now\"".into()),
        ("status 1", "expected `status [--json]`, got \"status 1\"".into()),
        ("status --json 1", "expected `status [--json]`, got \"status --json 1\"".into()),
        ("watch --json", "expected `watch`, got \"watch --json\"".into()),
        ("weight 1", "expected `weight N W`, got \"weight 1\"".into()),
        ("weight 1 2 3", "expected `weight N W`, got \"weight 1 2 3\"".into()),
        ("weight 1 65536", "expected a weight, 0 to 65535, got \"65536\"".into()),
        ("weight 1 +5", "expected a weight, 0 to 65535, got \"+5\"".into()),
        ("weight -1 5", format!("{server}, got \"-1\"")),
        ("weights", "expected `weights N=W ..`, got \"weights\"".into()),
        ("weights 0=1 2", "expected a server and its weight, as 0=1, got \"2\"".into()),
        ("weights 0=1 1=", "expected a weight, 0 to 65535, got \"\"".into()),
        ("weights =1", format!("{server}, got \"\"")),
        ("drain", "expected `drain N`, got \"drain\"".into()),
        ("count all", format!("{server}, got \"all\"")),
        ("count 10.1.0.5", format!("{server}, got \"10.1.0.5\"")),
        ("count 1 --jsn", "expected `count N [--json]`, got \"count 1 --jsn\"".into()),
        ("connections 1 2", "expected `connections [N] [--json]`, got \"connections 1 2\"".into()),
        ("down", "expected `down N`, got \"down\"".into()),
        (
            "disconnect 3",
            "expected an IPv4 address and a port, as 192.0.2.10:5432, got \"3\"".into(),
        ),
        ("flush", "expected `flush N`, got \"flush\"".into()),
    ] {
        assert_eq!(read(line), Err(complaint), "{line}");
    }
}

#[test]
fn weights_and_counts() {
    let mut instance = instance();
    assert_eq!(answer(&mut instance, "count 0").unwrap(), "0\n");
    assert!(pass(&mut instance, &syn(1)).is_some());
    assert_eq!(answer(&mut instance, "count 10.1.0.5:6432").unwrap(), "1\n");
    let draining = "server 0 (10.1.0.5:6432): weight 0, 1 connections, draining\n";
    assert_eq!(answer(&mut instance, "drain 0").unwrap(), draining);
    let unplugged = "server 1 (10.2.0.5:6432): weight 0, 0 connections, may be unplugged\n";
    assert_eq!(answer(&mut instance, "weight 10.2.0.5:6432 0").unwrap(), unplugged);
    let back = "server 1 (10.2.0.5:6432): weight 7, 0 connections, in service\n";
    assert_eq!(answer(&mut instance, "weight 1 7").unwrap(), back);
    assert_eq!(instance.director().weight(1), Some(7));
}

#[test]
fn weights_are_set_all_or_none() {
    let mut instance = instance();
    let several = "\
server 2 (10.30.0.5:6432): weight 0, 0 connections, may be unplugged
server 0 (10.1.0.5:6432): weight 9, 0 connections, in service
";
    assert_eq!(answer(&mut instance, "weights 2=0 10.1.0.5:6432=9").unwrap(), several);
    let before = weights(&instance);
    assert_eq!(before, [Some(9), Some(1), Some(0)]);
    let none = "there is no server of that number (5): the servers are 0 to 2, got";
    for (line, complaint) in [
        ("weights 0=5 1=6 3=7", format!("{none} 3")),
        ("weights 0=5 10.9.0.5:6432=6", "none of the servers 0 to 2 is 10.9.0.5:6432".into()),
        ("weights 0=5 1=6 0=5", "expected each server once, got server 0 twice".into()),
        ("weights 1=6 0=5 10.1.0.5:6432=5", "expected each server once, got server 0 twice".into()),
        ("weights 0=5 1=x", "expected a weight, 0 to 65535, got \"x\"".into()),
    ] {
        let set = instance.weights_set();
        assert_eq!(answer(&mut instance, line), Err(complaint), "{line}");
        assert_eq!((weights(&instance), instance.weights_set()), (before, set), "{line}");
    }
}

#[test]
fn the_library_refuses_servers_that_are_not_there() {
    let mut instance = instance();
    let words = "there is no server of that number (5): the servers are 0 to 2, got 3";
    for line in [
        "count 3",
        "count 3 --json",
        "connections 3",
        "drain 3",
        "weight 3 1",
        "down 3",
        "up 3",
        "flush 3",
        "left 3",
    ] {
        assert_eq!(answer(&mut instance, line), Err(words.to_string()), "{line}");
    }
    let other = "none of the servers 0 to 2 is 10.1.0.5:6433";
    assert_eq!(answer(&mut instance, "count 10.1.0.5:6433"), Err(other.to_string()));
    let nobody = "there is no connection of 10.0.0.1:9";
    assert_eq!(answer(&mut instance, "disconnect 10.0.0.1:9"), Err(nobody.to_string()));
}

/// An equal weight is no change.
#[test]
fn changed_weights_are_told() {
    let mut instance = instance();
    let mut changes = |line: &str| changes(&mut instance, line);
    assert_eq!(changes("weight 2 20"), [""; 0]);
    assert_eq!(changes("weight 2 7"), ["server 2 (10.30.0.5:6432): weight 20 -> 7"]);
    assert_eq!(changes("drain 2"), ["server 2 (10.30.0.5:6432): weight 7 -> 0"]);
    assert_eq!(changes("drain 2"), [""; 0]);
    let several =
        ["server 0 (10.1.0.5:6432): weight 1 -> 2", "server 2 (10.30.0.5:6432): weight 0 -> 4"];
    assert_eq!(changes("weights 0=2 1=1 2=4"), several);
    assert_eq!(changes("status"), [""; 0]);
}

#[test]
fn ended_connections_are_told() {
    let mut instance = instance();
    (1..=6).for_each(|port| assert!(pass(&mut instance, &syn(port)).is_some()));
    let told = "client 10.0.0.1:2 disconnected from server 1 (10.2.0.5:6432)";
    assert_eq!(changes(&mut instance, "disconnect 10.0.0.1:2"), [told]);
    assert_eq!(instance.director().count(1), Ok(1));
    let told = "server 0 (10.1.0.5:6432): 2 connections flushed";
    assert_eq!(changes(&mut instance, "flush 10.1.0.5:6432"), [told]);
    assert_eq!(instance.director().count(0), Ok(0));
    assert_eq!(changes(&mut instance, "flush 0"), [""; 0]);
    let text = answer(&mut instance, "flush 2").unwrap();
    let load = "server 2 (10.30.0.5:6432): weight 20, 0 connections, in service";
    assert_eq!(text, format!("server 2 (10.30.0.5:6432): 2 connections flushed\n{load}\n"));
}

/// The state of a server that is down, and what the log is told: neither a weight nor a drain undoes it, nor does it undo them.
#[test]
fn down_and_up_beside_weights() {
    let mut instance = instance();
    let down = "server 0 (10.1.0.5:6432): weight 1, 0 connections, down\n";
    assert_eq!(answer(&mut instance, "down 0").unwrap(), down);
    assert_eq!(instance.director().weight(0), Some(0));
    let drained = "server 0 (10.1.0.5:6432): weight 0, 0 connections, down, may be unplugged\n";
    assert_eq!(answer(&mut instance, "drain 0").unwrap(), drained);
    let up = "server 0 (10.1.0.5:6432): weight 0, 0 connections, may be unplugged\n";
    assert_eq!(answer(&mut instance, "up 10.1.0.5:6432").unwrap(), up);
    assert_eq!(instance.director().weight(0), Some(0));
    assert_eq!(changes(&mut instance, "up 0"), [""; 0]);
    assert_eq!(changes(&mut instance, "down 0"), ["server 0 (10.1.0.5:6432): down"]);
    assert_eq!(changes(&mut instance, "down 0"), [""; 0]);
    let weight = "server 0 (10.1.0.5:6432): weight 0 -> 5";
    assert_eq!(changes(&mut instance, "weight 0 5"), [weight]);
    assert_eq!(instance.director().weight(0), Some(0));
    assert_eq!(changes(&mut instance, "up 0"), ["server 0 (10.1.0.5:6432): up"]);
    assert_eq!(instance.director().weight(0), Some(5));
}

#[test]
fn connections_of_udp_are_not_ended_here() {
    let mut instance = instance_of(&CONFIG.replace("tcp", "udp"));
    let words = "expected a service of TCP: connections of UDP can't be ended here, they end by 300 s without a packet";
    for line in ["disconnect 10.0.0.1:1", "flush 0"] {
        assert_eq!(answer(&mut instance, line), Err(words.to_string()));
    }
}

#[test]
fn a_reload_without_its_file_changes_nothing() {
    let complaint = answer(&mut instance(), "reload").unwrap_err();
    assert!(complaint.starts_with("/nowhere/at.all: can't be opened: "), "{complaint}");
    assert!(complaint.ends_with("; nothing was changed"), "{complaint}");
}
