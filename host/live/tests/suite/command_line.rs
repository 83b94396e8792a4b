//! The two programs as they are started, without a device.

use crate::support::CONFIG;
use live::client::usage;
use live::control::commands::help::{Entry, COMMANDS};
use live::log::line;
use programs::SCRIPT;
use std::fs;
use std::path::PathBuf;
use std::process::{Command, Output};
use std::time::SystemTime;

fn daemon(words: &[&str]) -> (i32, String, String) {
    run(Command::new(env!("CARGO_BIN_EXE_nidhaagufd")).args(words))
}

fn control(words: &[&str]) -> (i32, String, String) {
    run(Command::new(env!("CARGO_BIN_EXE_nidhaagufctl")).args(words))
}

fn run(command: &mut Command) -> (i32, String, String) {
    let Output { status, stdout, stderr } = command.output().unwrap();
    let text = |bytes: Vec<u8>| String::from_utf8(bytes).unwrap();
    (status.code().unwrap(), text(stdout), text(stderr))
}

/// A file of the test run's own, by a name that no other test uses.
fn file(name: &str, text: &str) -> PathBuf {
    let path = PathBuf::from(env!("CARGO_TARGET_TMPDIR")).join(name);
    fs::write(&path, text).unwrap();
    path
}

#[test]
fn a_bad_configuration_ends_the_daemon_with_its_line() {
    let path = file("bad.conf", &CONFIG.replace("least-connection", "rr"));
    let path = path.to_str().unwrap();
    let (code, out, log) = daemon(&["--config", path]);
    assert_eq!((code, out.as_str()), (2, ""));
    assert!(
        log.starts_with(&format!("<3>nidhaagufd: {path} line 3: expected a scheduler: ")),
        "{log}"
    );
    let (code, _, log) = daemon(&["--config", path, "--scheduler", "1", "--slots", "0"]);
    assert_eq!(code, 2);
    assert!(log.contains("line 3"), "a flag doesn't make a bad line good: {log}");
}

#[test]
fn check_says_whether_it_is_good() {
    let path = file("good.conf", CONFIG);
    let path = path.to_str().unwrap();
    let good = (0, "configuration is good\n".to_string(), String::new());
    assert_eq!(daemon(&["--config", path, "--check"]), good);
    let (code, out, log) = daemon(&["--check", "--config", path, "--slots", "4097"]);
    assert_eq!((code, out.as_str()), (2, ""));
    assert!(log.starts_with("<3>nidhaagufd: --slots: there must be"), "{log}");
    let (code, _, log) = daemon(&["--check", "--config", "/nowhere/at.all"]);
    assert_eq!(code, 2);
    assert!(log.starts_with("<3>nidhaagufd: /nowhere/at.all: can't be opened: "), "{log}");
}

/// As 2026-11-16T14:02:06Z: the time of now, between those before and after.
#[test]
fn the_log_has_its_time() {
    let now = || line::time(SystemTime::now());
    let before = now();
    let (code, _, log) = daemon(&["--log-time", "--config", "/nowhere/at.all"]);
    assert_eq!(code, 2);
    let (time, rest) = log.split_once(' ').unwrap();
    assert!(rest.starts_with("error nidhaagufd: /nowhere/at.all: can't be opened: "), "{log}");
    assert!(*before <= *time && *time <= *now(), "{log}");
}

#[test]
fn a_file_that_has_no_end_is_not_read_to_it() {
    let (code, _, log) = daemon(&["--check", "--config", "/dev/zero"]);
    assert_eq!(code, 2);
    assert!(log.contains("got more than 65536 bytes"), "{log}");
}

#[test]
fn help_and_version() {
    let (code, out, _) = daemon(&["--help"]);
    assert!(code == 0 && out.contains("--clock-speed N"), "{out}");
    assert_eq!(daemon(&["--version"]).1, "nidhaagufd 0.1.0\n");
    assert_eq!(control(&["--version"]), (0, "nidhaagufctl 0.1.0\n".into(), String::new()));
    let (_, help, _) = control(&["--help"]);
    for words in [&["help"][..], &["-h"], &["--socket", "x", "--help"]] {
        assert_eq!(control(words), (0, help.clone(), String::new()));
    }
    for code in ["0 done", "1 the director refused", "2 wrong usage", "3 the time of a wait is up"]
    {
        assert!(help.contains(code), "{help}");
    }
}

/// Every command is in the help with its arguments, has a help of its own, and is the director's or the client's.
#[test]
fn help_of_each_command() {
    let (_, help, _) = control(&["--help"]);
    let entries = usage::entries();
    assert_eq!(entries.len(), COMMANDS.len() + 2);
    for entry in entries {
        let Entry { form, summary, details } = entry;
        let (_, after) = help.split_once(&format!("\n{form}")).expect(form);
        assert!(after.starts_with([' ', '\n']) && after.trim_start().starts_with(summary));
        let name = entry.name();
        let (code, out, _) = control(&[name, "--help"]);
        assert_eq!(code, 0);
        let first = format!("usage: nidhaagufctl [--socket PATH] {form}\n\n{summary}\n");
        assert!(out.starts_with(&first) && out.contains(details), "{out}");
        assert_eq!(control(&["help", name]).1, out);
        assert_eq!(control(&[name, "1", "-h"]).1, out);
    }
    let (code, _, complaint) = control(&["frob", "--help"]);
    assert!(
        code == 2 && complaint.starts_with("nidhaagufctl: expected a command: "),
        "{complaint}"
    );
}

#[test]
fn wrong_usage_of_the_command() {
    for (words, complaint) in [
        (&[][..], "expected a command"),
        (&["frob"], "expected a command: status"),
        (&["--socket"], "--socket: expected a path"),
        (&["--socket", "x"], "expected a command"),
        (&["weight", "1"], "expected `weight N W`"),
        (&["wait"], "expected `wait N [SECONDS]`, got \"wait\""),
        (&["wait", "0", "1", "2"], "expected `wait N [SECONDS]`, got \"wait 0 1 2\""),
        (&["wait", "zero"], "expected a server's number or its ADDRESS:PORT, got \"zero\""),
        (&["wait", "0", "-1"], "expected a number of seconds, got \"-1\""),
        (&["drain", "0", "--wait", "soon"], "expected a number of seconds, got \"soon\""),
        (&["drain", "0", "--wait", "1", "2"], "expected `drain N [--wait [SECONDS]]`, got "),
        (&["drain", "0", "now"], "expected `drain N [--wait [SECONDS]]`, got \"drain 0 now\""),
        (&["drain"], "expected `drain N [--wait [SECONDS]]`, got \"drain\""),
        (&["drain", "zero"], "expected a server's number or its ADDRESS:PORT, got \"zero\""),
        (&["weights", "0"], "expected a server and its weight, as 0=1, got \"0\""),
        (&["connections", "--jsn"], "expected a server's number or its ADDRESS:PORT, got "),
        (&["reload", "now"], "expected `reload`, got \"reload now\""),
        (&["weight", "1", "70000"], "expected a weight, 0 to 65535"),
        (
            &["--socket", "/nowhere/sock", "status"],
            "can't talk to a director at /nowhere/sock: there is no such socket",
        ),
    ] {
        let (code, out, log) = control(words);
        assert_eq!((code, out.as_str()), (2, ""), "{words:?}");
        assert!(log.starts_with(&format!("nidhaagufctl: {complaint}")), "{words:?}: {log}");
    }
}

/// On a terminal, which `script` makes, no level stands before a line.
#[test]
fn people_read_no_levels() {
    let words = format!("{} --chek", env!("CARGO_BIN_EXE_nidhaagufd"));
    let output = SCRIPT.run(&["-qec", &words, "/dev/null"]);
    assert_eq!(output.status.code(), Some(2));
    let line = "nidhaagufd: --chek: there is no such flag, see --help\r\n";
    assert_eq!(String::from_utf8_lossy(&output.stdout), line);
}
