//! The configuration read anew: the weights that it changes, and what it may not change.

use crate::support::*;
use live::config::flags::Flags;
use live::config::reload::{changed_weights, Reload};
use live::config::Config;
use live::instance::Instance;
use live::policy::{Policy, Unknown};
use std::fs;
use std::path::PathBuf;

fn config(text: &str) -> Config {
    Config::read(text, "test.conf", Flags::default()).unwrap()
}

/// What a file with that text would change, where CONFIG was applied.
fn changed(text: &str) -> Result<Vec<(usize, u16)>, String> {
    let started = config(CONFIG);
    changed_weights(&config(text), &started, &started.settings())
}

#[test]
fn changed_weights_by_number() {
    assert_eq!(changed(CONFIG), Ok(vec![]));
    assert_eq!(changed(&CONFIG.replace("weight 20", "weight 0")), Ok(vec![(2, 0)]));
    let all = CONFIG.replace("weight 1", "weight 9").replace("weight 20", "weight 65535");
    assert_eq!(changed(&all), Ok(vec![(0, 9), (1, 9), (2, 65_535)]));
    let spaced = CONFIG.replace(' ', "  ").replace("least-connection", "3");
    assert_eq!(changed(&format!("\n{spaced}slots 4096\n")), Ok(vec![]));
}

#[test]
fn what_needs_a_new_setup_is_told_with_its_line() {
    let without = |line: &str| CONFIG.replace(line, "");
    let (tcp, second) = ("192.0.2.10:5432 tcp", "10.2.0.5:6432");
    for (text, place, part, now_and_then) in [
        (CONFIG.replace(":5432 ", ":5433 "), " line 2", "service", [tcp, "192.0.2.10:5433 tcp"]),
        (CONFIG.replace("tcp", "udp"), " line 2", "service", [tcp, "192.0.2.10:5432 udp"]),
        (
            CONFIG.replace("least-", "weighted-least-"),
            " line 3",
            "scheduler",
            ["least-connection", "weighted-least-connection"],
        ),
        (format!("{CONFIG}slots 9\n"), " line 7", "number of slots", ["4096", "9"]),
        (
            format!("{CONFIG}server 1.0.0.4:1 weight 1"),
            " line 7",
            "server 3",
            ["none", "1.0.0.4:1"],
        ),
        (CONFIG.replace("10.2.0.5", "9.2.0.5"), " line 5", "server 1", [second, "9.2.0.5:6432"]),
        (
            without("server 10.2.0.5:6432 weight 1\n"),
            " line 5",
            "server 1",
            [second, "10.30.0.5:6432"],
        ),
        (without("server 10.30.0.5:6432 weight 20\n"), "", "server 2", ["10.30.0.5:6432", "none"]),
    ] {
        let [running, value] = now_and_then;
        let other = format!("another {part} ({value} instead of {running})");
        let words = format!("{other} needs a restart, which forgets all connections");
        assert_eq!(changed(&text), Err(format!("test.conf{place}: {words}")));
    }
}

#[test]
fn what_needs_a_restart_is_told_with_its_line() {
    for (text, words) in
        [("device d1", "device"), ("socket /x", "control socket"), ("state /x", "state file")]
    {
        let complaint = format!("test.conf line 7: another {words} needs a restart");
        assert_eq!(changed(&format!("{CONFIG}{text}\n")), Err(complaint));
    }
}

/// A director that was started with CONFIG in a file of its own, and what a reload of another text gives.
struct Reloaded {
    path: PathBuf,
    instance: Instance,
    reload: Reload,
}

impl Reloaded {
    fn new(name: &str) -> Reloaded {
        let path = PathBuf::from(env!("CARGO_TARGET_TMPDIR")).join(name);
        let flags = Flags { config: Some(path.clone()), ..Flags::default() };
        let mut instance = instance();
        instance.set_policy(config(CONFIG).policy());
        Reloaded { path, instance, reload: Reload::new(flags, config(CONFIG)) }
    }

    fn apply(&mut self, text: &str) -> Result<Vec<String>, String> {
        fs::write(&self.path, text).unwrap();
        let changes = self.reload.apply(&mut self.instance)?;
        Ok(changes.iter().map(ToString::to_string).collect())
    }

    fn weights(&self) -> [Option<u16>; 3] {
        [0, 1, 2].map(|server| self.instance.director().weight(server))
    }
}

/// The file is compared with what was applied last, not with the weights in force: what a command has set stays.
#[test]
fn a_drained_server_stays_drained() {
    let mut reloaded = Reloaded::new("drained.conf");
    reloaded.instance.set_weight(0, 0).unwrap();
    assert_eq!(reloaded.apply(CONFIG), Ok(vec![]));
    let other = CONFIG.replace("weight 20", "weight 5");
    let words = "server 2 (10.30.0.5:6432): weight 20 -> 5".to_string();
    assert_eq!(reloaded.apply(&other), Ok(vec![words]));
    assert_eq!(reloaded.apply(&other), Ok(vec![]));
    assert_eq!(reloaded.weights(), [Some(0), Some(1), Some(5)]);
    // from the weight in force
    let back = other.replace("weight 1 ", "weight 3 ");
    let words = "server 0 (10.1.0.5:6432): weight 0 -> 3".to_string();
    assert_eq!(reloaded.apply(&back), Ok(vec![words]));
    // set by a command already
    reloaded.instance.set_weight(1, 8).unwrap();
    assert_eq!(reloaded.apply(&back.replace("weight 1\n", "weight 8\n")), Ok(vec![]));
}

/// What is said of unknown connections and late openings is changed and told like a weight, and kept where the line goes.
#[test]
fn other_settings_are_applied_and_told() {
    let mut reloaded = Reloaded::new("settings.conf");
    reloaded.instance.set_policy(config(CONFIG).policy());
    assert_eq!(reloaded.apply(CONFIG), Ok(vec![]));
    let other =
        format!("{CONFIG}unknown drop\nopening-timeout 5\n").replace("weight 20", "weight 5");
    let words = [
        "server 2 (10.30.0.5:6432): weight 20 -> 5",
        "unknown reset 200 -> drop",
        "opening-timeout 30 -> 5",
    ];
    assert_eq!(reloaded.apply(&other).unwrap(), words);
    assert_eq!(reloaded.instance.policy(), Policy { unknown: Unknown::Drop, opening_timeout: 5 });
    assert_eq!(reloaded.apply(&other), Ok(vec![]));
    // back to what is so by default
    let words = ["unknown drop -> reset 200", "opening-timeout 5 -> 30"];
    assert_eq!(reloaded.apply(&CONFIG.replace("weight 20", "weight 5")).unwrap(), words);
    assert!(reloaded.apply(&format!("{CONFIG}unknown drop\nopening-timeout 1000\n")).is_err());
    assert_eq!(reloaded.instance.policy(), config(CONFIG).policy());
}

/// A weight in the file of a server that is down is the operator's, and in force when it is up.
#[test]
fn a_server_that_is_down_stays_down() {
    let mut reloaded = Reloaded::new("down.conf");
    reloaded.instance.set_down(2, true).unwrap();
    let words = "server 2 (10.30.0.5:6432): weight 20 -> 5".to_string();
    assert_eq!(reloaded.apply(&CONFIG.replace("weight 20", "weight 5")), Ok(vec![words]));
    assert_eq!((reloaded.weights()[2], reloaded.instance.weight(2)), (Some(0), Some(5)));
    reloaded.instance.set_down(2, false).unwrap();
    assert_eq!(reloaded.weights()[2], Some(5));
}

#[test]
fn a_bad_file_changes_nothing() {
    let mut reloaded = Reloaded::new("bad_again.conf");
    let name = reloaded.path.display().to_string();
    let better = CONFIG.replace("weight 20", "weight 5");
    for (text, words) in [
        (
            better.replace("weight 5", "weight 65536"),
            " line 6: expected a weight, 0 to 65535, got \"65536\"",
        ),
        (
            better.replace("10.2.0.5", "10.1.0.5"),
            " line 5: two servers have the same address and port (4)",
        ),
        (better.replace("least-", ""), " line 3: expected a scheduler: "),
        (
            better.replace("least-connection", "1"),
            " line 3: another scheduler (round-robin instead of ",
        ),
        (String::new(), ": no server is given: "),
    ] {
        let complaint = reloaded.apply(&text).unwrap_err();
        assert!(complaint.starts_with(&format!("{name}{words}")), "{complaint}");
        assert!(complaint.ends_with("; nothing was changed"), "{complaint}");
        assert_eq!(reloaded.weights(), [Some(1), Some(1), Some(20)]);
    }
    assert_eq!(reloaded.apply(&better).unwrap().len(), 1);
}

/// Read beforehand: what is in the file later is for the next reload.
#[test]
fn what_was_read_is_applied() {
    let mut reloaded = Reloaded::new("beforehand.conf");
    fs::write(&reloaded.path, CONFIG).unwrap();
    reloaded.reload.read();
    let other = CONFIG.replace("weight 20", "weight 5");
    assert_eq!(reloaded.apply(&other), Ok(vec![]));
    assert_eq!(reloaded.apply(&other).unwrap().len(), 1);
}

#[test]
fn a_file_that_could_keep_it_waiting_is_refused() {
    for path in ["/dev/zero", "/"] {
        let flags = Flags { config: Some(path.into()), ..Flags::default() };
        let complaint = Reload::new(flags, config(CONFIG)).apply(&mut instance()).unwrap_err();
        let words = "can't be opened: a reload takes a regular file; nothing was changed";
        assert_eq!(complaint, format!("{path}: {words}"));
    }
}
