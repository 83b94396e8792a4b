//! The manual pages and the sample configuration, against the programs.

use crate::support::CONFIG;
use live::client::usage;
use live::config::flags::{self, Flags};
use live::config::Config;
use programs::MANDOC;
use std::collections::BTreeSet;
use std::fs;
use std::path::PathBuf;
use std::process::Command;

const PAGES: [&str; 3] = ["man/nidhaagufctl.8", "man/nidhaagufd.8", "man/nidhaaguf.conf.5"];
const SAMPLE: &str = "contrib/nidhaaguf.conf";

fn path(name: &str) -> PathBuf {
    PathBuf::from(env!("CARGO_MANIFEST_DIR")).join("../..").join(name)
}

fn read(name: &str) -> String {
    fs::read_to_string(path(name)).unwrap()
}

/// A page as people read it, in lower case: what is printed twice for bold or underlined type is there once.
fn rendered(page: &str) -> String {
    let output = MANDOC.run(&["-T", "ascii", "-O", "width=200", path(page).to_str().unwrap()]);
    assert!(output.status.success());
    let mut text = String::new();
    for letter in String::from_utf8(output.stdout).unwrap().chars() {
        match letter {
            '\u{8}' => drop(text.pop()),
            _ => text.push(letter.to_ascii_lowercase()),
        }
    }
    text
}

/// What a page has entries for, by the macro before their names.
fn entries(page: &str, kind: &str) -> BTreeSet<String> {
    let text = read(page);
    let lines = text.lines().filter_map(|line| line.strip_prefix(&format!(".It {kind} ")));
    lines.map(|line| line.split(' ').next().unwrap().to_string()).collect()
}

#[test]
fn the_pages_are_clean() {
    for page in PAGES {
        let output = MANDOC.run(&["-T", "lint", "-W", "warning", path(page).to_str().unwrap()]);
        assert_eq!(String::from_utf8_lossy(&output.stdout), "", "{page}");
        assert!(output.status.success(), "{page}");
    }
}

#[test]
fn every_command_is_in_its_page_with_its_arguments() {
    let (page, text) = (PAGES[0], rendered(PAGES[0]));
    let told: BTreeSet<String> =
        usage::entries().iter().map(|entry| entry.name().to_string()).collect();
    assert_eq!(entries(page, "Cm"), told);
    for entry in usage::entries() {
        let form = entry.form.to_ascii_lowercase().replace("..", "...");
        let is_there = |line: &str| line.trim().starts_with(&form);
        assert!(text.lines().any(is_there), "{form} is missing in\n{text}");
    }
    for code in ["0", "1", "2", "3"] {
        assert!(read(page).contains(&format!("\n.It {code}\n")), "{code}");
    }
    assert_eq!(entries(page, "Fl"), ["-help", "-socket", "-version"].map(String::from).into());
}

#[test]
fn every_flag_of_the_daemon_is_in_its_page() {
    let words = flags::HELP.split([' ', '\n', '[', ']', ',']);
    let flags: BTreeSet<String> = words
        .filter_map(|word| word.strip_prefix('-'))
        .filter(|word| word.starts_with('-'))
        .map(String::from)
        .collect();
    assert!(flags.len() > 8, "{flags:?}");
    assert_eq!(entries(PAGES[1], "Fl"), flags);
    let text = read(PAGES[1]);
    for signal in ["SIGTERM", "SIGINT", "SIGQUIT", "SIGHUP"] {
        assert!(text.contains(signal) && flags::HELP.contains(signal), "{signal}");
    }
}

/// The settings, as a bad line is told them.
fn settings() -> BTreeSet<String> {
    let complaint = Config::read("frob", "test.conf", Flags::default()).unwrap_err();
    let (_, names) = complaint.split_once("expected a setting: ").unwrap();
    let (names, _) = names.split_once(", got").unwrap();
    names.replace(" or ", ", ").split(", ").map(String::from).collect()
}

#[test]
fn every_setting_is_in_its_page_in_the_help_and_in_the_sample() {
    let settings = settings();
    assert!(settings.len() > 8, "{settings:?}");
    assert_eq!(entries(PAGES[2], "Cm"), settings);
    let sample = read(SAMPLE);
    let given: BTreeSet<String> = sample
        .lines()
        .filter(|line| !line.starts_with('#'))
        .filter_map(|line| line.split(' ').next().filter(|name| !name.is_empty()))
        .map(String::from)
        .collect();
    assert_eq!(given, settings);
    let help = settings.iter().filter(|name| !flags::HELP.contains(&format!("  {name} ")));
    assert_eq!(help.collect::<Vec<_>>(), [""; 0]);
}

#[test]
fn the_sample_is_good_and_its_defaults_are_true() {
    let mut daemon = Command::new(env!("CARGO_BIN_EXE_nidhaagufd"));
    let output = daemon.args(["--check", "--config", path(SAMPLE).to_str().unwrap()]).output();
    let output = output.unwrap();
    assert_eq!(String::from_utf8_lossy(&output.stdout), "configuration is good\n");
    let sample = read(SAMPLE);
    let needed = ["service", "scheduler", "server"];
    let short = sample.lines().filter(|line| needed.iter().any(|name| line.starts_with(name)));
    let read = |text: &str| Config::read(text, "test.conf", Flags::default()).unwrap();
    let (whole, short) = (read(&sample), read(&short.collect::<Vec<_>>().join("\n")));
    let values = |config: &Config| {
        let Config { slots, device, socket, state, .. } = config.clone();
        (slots.value, device.value, socket.value, state.value, config.policy(), config.settings())
    };
    assert_eq!(values(&whole), values(&short));
    assert_ne!(whole.settings(), read(CONFIG).settings());
}
