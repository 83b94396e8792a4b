//! Configuration: what is read, and what is said of what isn't.

use crate::support::CONFIG;
use live::config::flags::{self, Flags, Request};
use live::config::setup;
use live::config::Config;
use live::policy::{Policy, Unknown};
use nidhaaguf::{Protocol, Scheduler};
use std::ffi::OsString;

fn read(text: &str) -> Result<Config, String> {
    Config::read(text, "test.conf", Flags::default())
}

/// What starting with that text would say.
fn complaint(text: &str) -> String {
    read(text).and_then(|config| setup::set_up(&config).map(|_| ())).unwrap_err()
}

fn flags_of(words: &[&str]) -> Result<Flags, String> {
    match flags::read(words.iter().map(OsString::from))? {
        Request::Run(flags) => Ok(flags),
        other => panic!("{other:?}"),
    }
}

#[test]
fn a_whole_file() {
    let config = read(&format!("{CONFIG}slots 7\n\tdevice d1#c\nsocket /x/y  # z\n")).unwrap();
    assert_eq!(config.service.value, ("192.0.2.10:5432".parse().unwrap(), Protocol::Tcp));
    assert_eq!(config.scheduler.value, Scheduler::LeastConnection);
    assert_eq!((config.slots.value, config.device.value.as_str()), (7, "d1"));
    assert_eq!(config.socket.value.to_str(), Some("/x/y"));
    assert_eq!(config.state.value.to_str(), Some("/x/y.state"));
    let other = read(&format!("{CONFIG}state /v/z\n")).unwrap();
    assert_eq!(other.state.value.to_str(), Some("/v/z"));
    let weights: Vec<u16> = config.servers.iter().map(|server| server.value.weight).collect();
    assert_eq!(weights, [1, 1, 20]);
    assert_eq!(setup::set_up(&config).unwrap().slots(), 7);
}

#[test]
fn defaults() {
    let config = read(&CONFIG.replace("tcp", "udp").replace("least-connection", "2")).unwrap();
    assert_eq!((config.slots.value, config.device.value.as_str()), (4_096, "nid0"));
    assert_eq!(config.socket.value.to_str(), Some("/run/nidhaaguf.sock"));
    assert_eq!(config.settings().protocol, Protocol::Udp);
    assert_eq!(config.scheduler.value, Scheduler::WeightedRoundRobin);
}

#[test]
fn schedulers_by_name_and_number() {
    for (number, name) in
        ["round-robin", "weighted-round-robin", "least-connection", "weighted-least-connection"]
            .iter()
            .enumerate()
    {
        for word in [name.to_string(), (number + 1).to_string()] {
            let config = read(&CONFIG.replace("least-connection", &word)).unwrap();
            assert_eq!(config.scheduler.value as usize, number + 1);
        }
    }
}

#[test]
fn bad_lines_are_told_with_their_number() {
    let names = "round-robin, weighted-round-robin, least-connection, weighted-least-connection";
    let address = "expected an IPv4 address and a port, as 192.0.2.10:5432";
    let server = "expected `server ADDRESS:PORT weight NUMBER`";
    for (old, new, words) in [
        ("least-connection", "rr", format!("3: expected a scheduler: {names} or 1 to 4, got \"rr\"")),
        ("least-connection", "5", format!("3: expected a scheduler: {names} or 1 to 4, got \"5\"")),
        ("tcp", "sctp", "2: expected a protocol: tcp or udp, got \"sctp\"".into()),
        ("192.0.2.10:5432", "192.0.2.10", format!("2: {address}, got \"192.0.2.10\"")),
        ("192.0.2.10:5432", "host:5432", format!("2: {address}, got \"host:5432\"")),
        ("10.2.0.5:6432", "[::1]:6432", format!("5: {address}, got \"[::1]:6432\"")),
        ("10.2.0.5:6432", "10.2.0.5:65536", format!("5: {address}, got \"10.2.0.5:65536\"")),
        ("weight 20", "weight 65536", "6: expected a weight, 0 to 65535, got \"65536\"".into()),
        ("weight 20", "", format!("6: {server}, got \"server 10.30.0.5:6432\"")),
        ("weight 20", "weight 1 2", format!("6: {server}, got \"server 10.30.0.5:6432 weight 1 2\"")),
        ("# the", "slots -1 #", "1: expected a number of slots, 1 to 4096, got \"-1\"".into()),
        ("# the service", "slots", "1: expected `slots NUMBER`, got \"slots\"".into()),
        (
            "# the service",
            "serverr x",
            "1: expected a setting: service, scheduler, slots, device, socket, state, unknown, opening-timeout or server, got \"serverr\"".into(),
        ),
        (
            "# the service",
            "scheduler 1",
            "3: given a second time: it is given at test.conf line 1 already".into(),
        ),
    ] {
        let text = CONFIG.replacen(old, new, 1);
        assert_eq!(complaint(&text), format!("test.conf line {words}"));
    }
}

#[test]
fn unknown_connections_and_late_openings() {
    let policy = |lines: &str| read(&format!("{CONFIG}{lines}")).unwrap().policy();
    let reset = |most| Unknown::Reset(most);
    for (lines, unknown, opening_timeout) in [
        ("", reset(200), 30),
        ("unknown reset", reset(200), 30),
        ("unknown reset 1\nopening-timeout 900", reset(1), 900),
        ("unknown reset 10000", reset(10_000), 30),
        ("opening-timeout 0 # off\nunknown drop", Unknown::Drop, 0),
    ] {
        assert_eq!(policy(lines), Policy { unknown, opening_timeout }, "{lines}");
    }
    let udp = CONFIG.replace("tcp", "udp");
    for lines in ["", "unknown drop\n", "opening-timeout 0\n"] {
        assert_eq!(read(&format!("{udp}{lines}")).unwrap().policy(), Policy::NONE);
    }
}

#[test]
fn what_can_not_be_said_of_unknown_connections_and_late_openings() {
    let udp = CONFIG.replace("tcp", "udp");
    let form = "expected `unknown reset`, `unknown reset NUMBER` or `unknown drop`";
    for (text, words) in [
        (format!("{CONFIG}unknown"), format!("{form}, got \"unknown\"")),
        (format!("{CONFIG}unknown drop 1"), format!("{form}, got \"unknown drop 1\"")),
        (format!("{CONFIG}unknown Reset"), format!("{form}, got \"unknown Reset\"")),
        (
            format!("{CONFIG}unknown reset 0"),
            "expected resets a second, 1 to 10000, got \"0\"".into(),
        ),
        (
            format!("{CONFIG}unknown reset 10001"),
            "expected resets a second, 1 to 10000, got \"10001\"".into(),
        ),
        (
            format!("{CONFIG}opening-timeout"),
            "expected `opening-timeout SECONDS`, got \"opening-timeout\"".into(),
        ),
        (format!("{CONFIG}opening-timeout 901"), "expected seconds, 0 to 900, got \"901\"".into()),
        (format!("{CONFIG}opening-timeout 5s"), "expected seconds, 0 to 900, got \"5s\"".into()),
        (
            format!("{udp}unknown reset"),
            "expected `unknown drop` for udp, got \"unknown reset 200\"".into(),
        ),
        (
            format!("{udp}opening-timeout 9"),
            "expected `opening-timeout 0` for udp, got \"opening-timeout 9\"".into(),
        ),
    ] {
        assert_eq!(complaint(&text), format!("test.conf line 7: {words}"));
    }
    let twice = format!("{CONFIG}unknown drop\nunknown drop\n");
    assert_eq!(
        complaint(&twice),
        "test.conf line 8: given a second time: it is given at test.conf line 7 already"
    );
}

#[test]
fn missing_settings() {
    for (line, words) in [
        (
            "service",
            "service is given: expected `service ADDRESS:PORT tcp` or `service ADDRESS:PORT udp`",
        ),
        (
            "scheduler",
            "scheduler is given: expected `scheduler NAME`, as `scheduler least-connection`",
        ),
        ("server", "server is given: expected `server ADDRESS:PORT weight NUMBER`"),
    ] {
        let kept = CONFIG.lines().filter(|kept| !kept.starts_with(&format!("{line} ")));
        let text = kept.collect::<Vec<_>>().join("\n");
        assert_eq!(complaint(&text), format!("test.conf: no {words}"));
    }
}

#[test]
fn what_the_library_refuses_is_told_with_its_line() {
    let sizes = "there must be 1 to 64 servers and 1 to 4,096 slots (1)";
    let many: String =
        (0..62).map(|port| format!("server 10.9.0.1:{} weight 1\n", port + 1)).collect();
    for (text, words) in [
        (format!("{CONFIG}slots 0"), format!("7: {sizes}, got 0 slots")),
        (format!("{CONFIG}slots 4097"), format!("7: {sizes}, got 4097 slots")),
        (format!("{CONFIG}{many}"), format!("68: {sizes}, got 65 servers")),
        (
            CONFIG.replace("192.0.2.10", "0.0.0.0"),
            "2: the virtual address and port must not be 0 (2), got 0.0.0.0:5432".into(),
        ),
        (
            CONFIG.replace("10.2.0.5:6432", "10.2.0.5:0"),
            "5: a server's address or port is 0 (3), got 10.2.0.5:0".into(),
        ),
        (
            CONFIG.replace("10.30.0.5", "10.1.0.5"),
            "6: two servers have the same address and port (4), got 10.1.0.5:6432, as at test.conf line 4".into(),
        ),
    ] {
        assert_eq!(complaint(&text), format!("test.conf line {words}"));
    }
}

/// Its address with another port, and its port at another address, are a server's like any other.
#[test]
fn the_service_itself_is_no_server() {
    let itself = CONFIG.replace("10.2.0.5:6432", "192.0.2.10:5432");
    let own = "expected a server's own address and port";
    let words = format!("test.conf line 5: {own}, got those of the service, 192.0.2.10:5432");
    assert_eq!(complaint(&itself), words);
    for other in ["192.0.2.10:6432", "10.2.0.5:5432"] {
        let config = read(&CONFIG.replace("10.2.0.5:6432", other)).unwrap();
        assert!(setup::set_up(&config).is_ok(), "{other}");
    }
}

#[test]
fn names_that_linux_would_refuse() {
    let device = "expected a name of 1 to 15 letters, digits, - _ and .";
    for name in ["sixteen-letters-", "a/b", "tun%d", ".."] {
        let text = format!("{CONFIG}device {name}");
        assert_eq!(complaint(&text), format!("test.conf line 7: {device}, got {name:?}"));
    }
    let text = format!("{CONFIG}device a b");
    assert_eq!(complaint(&text), "test.conf line 7: expected `device NAME`, got \"device a b\"");
    let text = format!("{CONFIG}device");
    assert_eq!(complaint(&text), "test.conf line 7: expected `device NAME`, got \"device\"");
    for name in ["", "a b", "sixteen-letters-"] {
        let flags = flags_of(&["--config", "f", "--device", name]).unwrap();
        let config = Config::read(CONFIG, "test.conf", flags).unwrap();
        let words = format!("--device: {device}, got {name:?}");
        assert_eq!(setup::set_up(&config).unwrap_err(), words);
    }
    let text = format!("{CONFIG}socket /{}", "x".repeat(107));
    assert_eq!(complaint(&text), "test.conf line 7: expected a path of 1 to 107 bytes");
    assert!(setup::set_up(&read(&format!("{CONFIG}socket /{}", "x".repeat(106))).unwrap()).is_ok());
    let each = "test.conf line 8: the control socket and the state file need a path each";
    assert_eq!(complaint(&format!("{CONFIG}socket /s\nstate /s")), each);
}

#[test]
fn flags_override_the_file() {
    let words =
        ["--config", "f", "--slots", "9", "--scheduler", "4", "--device", "d", "--socket", "s"];
    let flags = flags_of(&words).unwrap();
    let config = Config::read(&format!("{CONFIG}slots 7\ndevice e\n"), "test.conf", flags).unwrap();
    assert_eq!((config.slots.value, config.device.value.as_str()), (9, "d"));
    assert_eq!(config.scheduler.value, Scheduler::WeightedLeastConnection);
    assert_eq!(config.socket.value.to_str(), Some("s"));
    assert_eq!(config.state.value.to_str(), Some("s.state"));
    let flags = flags_of(&["--config", "f", "--slots", "5000"]).unwrap();
    let config = Config::read(CONFIG, "test.conf", flags).unwrap();
    assert!(setup::set_up(&config).unwrap_err().starts_with("--slots: there must be 1 to 64"));
}

#[test]
fn wrong_flags() {
    for (words, complaint) in [
        (&["--slots", "9"][..], "--config FILE is missing"),
        (&["--config"], "--config: expected a value after it"),
        (&["--config", "a", "--config", "b"], "--config: given twice"),
        (
            &["--config", "a", "--slots", "x"],
            "--slots: expected a number of slots, 1 to 4096, got \"x\"",
        ),
        (&["--config", "a", "--clock-speed", "0"], "--clock-speed: expected 1 to 1000, got \"0\""),
        (
            &["--config", "a", "--clock-speed", "1001"],
            "--clock-speed: expected 1 to 1000, got \"1001\"",
        ),
        (&["a.conf"], "a.conf: there is no such flag, see --help"),
    ] {
        assert_eq!(flags_of(words).unwrap_err(), complaint);
    }
    let words = ["--config", "a", "--check", "--clock-speed", "1000", "--log-time"];
    let flags = flags_of(&words).unwrap();
    assert!(flags.check && flags.log_time && flags.clock_speed == Some(1000));
    assert!(!flags.take_over && flags_of(&["--take-over", "--config", "a"]).unwrap().take_over);
}
