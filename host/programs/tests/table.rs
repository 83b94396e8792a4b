//! The table rig/programs.txt is whole, and nothing is started past it.

use programs::TABLE;
use std::collections::HashSet;
use std::fs;
use std::path::{Path, PathBuf};

/// Who may start programs: all drills, one of them, the tests, the benchmark.
const STARTERS: [&str; 13] = [
    "drills", "drain", "ports", "upgrade", "flood", "impaired", "death", "forged", "operator",
    "compare", "profile", "tests", "bench",
];

#[test]
fn each_program_has_one_line_with_its_package_and_who_starts_it() {
    let mut programs = HashSet::new();
    for line in TABLE.lines().filter(|line| !line.starts_with('#')) {
        let words: Vec<&str> = line.split_whitespace().collect();
        let [program, _package, starters @ ..] = words.as_slice() else { panic!("{line}") };
        assert!(programs.insert(*program), "{program} stands there twice");
        assert!(!starters.is_empty(), "{line}");
        assert!(starters.iter().all(|who| STARTERS.contains(who)), "{line}");
    }
    assert!(programs.contains("tcpdump"));
}

/// A command is made by `Program` alone, or for a program that cargo has built for the test at hand.
#[test]
fn no_command_is_made_past_the_table() {
    let made = concat!("Command", "::new(");
    let repository = Path::new(env!("CARGO_MANIFEST_DIR")).join("../..");
    let mut files = Vec::new();
    add_sources(&repository.join("host"), &mut files);
    add_sources(&repository.join("rig"), &mut files);
    let mut here = 0;
    for file in files {
        let text = fs::read_to_string(&file).unwrap();
        let commands = text.split(made).skip(1);
        let strange = commands.filter(|rest| !rest.starts_with("env!(\"CARGO_BIN_EXE_")).count();
        match file.ends_with("programs/src/lib.rs") {
            true => here += strange,
            false => assert_eq!(strange, 0, "{}", file.display()),
        }
    }
    assert_eq!(here, 1);
}

/// The Rust sources below a directory, without what cargo has built.
fn add_sources(directory: &Path, files: &mut Vec<PathBuf>) {
    for entry in fs::read_dir(directory).unwrap() {
        let path = entry.unwrap().path();
        if path.is_dir() && !path.ends_with("target") {
            add_sources(&path, files);
        } else if path.extension().is_some_and(|extension| extension == "rs") {
            files.push(path);
        }
    }
}
