//! The programs that the drills and the tests start. Each stands with its Debian package in the table
//! rig/programs.txt, by which the packages are installed; a program that isn't there doesn't compile here.

#![forbid(unsafe_code)]
#![warn(missing_docs)]

use std::process::{Command, Output};

/// The table: a program to a line, its package, and who starts it.
pub const TABLE: &str = include_str!("../../../rig/programs.txt");

/// A program of the table.
#[derive(Clone, Copy, Debug, PartialEq, Eq)]
pub struct Program(&'static str);

/// Network namespaces, devices, addresses and routes.
pub const IP: Program = Program::named("ip");
/// Sockets.
pub const SS: Program = Program::named("ss");
/// Settings of the kernel.
pub const SYSCTL: Program = Program::named("sysctl");
/// Another user's rights for a program.
pub const SETPRIV: Program = Program::named("setpriv");
/// A terminal for a program.
pub const SCRIPT: Program = Program::named("script");
/// A program with signals of its own, whatever its parent ignores.
pub const ENV: Program = Program::named("env");
/// A shell, for what a document tells to type.
pub const BASH: Program = Program::named("bash");
/// JSON, read by another program than its writer.
pub const JQ: Program = Program::named("jq");
/// Prometheus' checks of rules and metrics.
pub const PROMTOOL: Program = Program::named("promtool");
/// Checks of shell scripts.
pub const SHELLCHECK: Program = Program::named("shellcheck");
/// Manual pages.
pub const MANDOC: Program = Program::named("mandoc");
/// Signals.
pub const KILL: Program = Program::named("kill");
/// Copies of files and directories.
pub const CP: Program = Program::named("cp");
/// Packets captured and read.
pub const TCPDUMP: Program = Program::named("tcpdump");
/// The kernel's packet filter and address translation.
pub const NFT: Program = Program::named("nft");
/// HAProxy.
pub const HAPROXY: Program = Program::named("haproxy");
/// Samples of what a program does.
pub const PERF: Program = Program::named("perf");
/// PostgreSQL: makes a data directory.
pub const INITDB: Program = Program::named("initdb");
/// PostgreSQL: starts and stops a server.
pub const PG_CTL: Program = Program::named("pg_ctl");
/// PostgreSQL: a client.
pub const PSQL: Program = Program::named("psql");
/// PostgreSQL: load.
pub const PGBENCH: Program = Program::named("pgbench");
/// The live director.
pub const NIDHAAGUFD: Program = Program::named("nidhaagufd");
/// The operator's command.
pub const NIDHAAGUFCTL: Program = Program::named("nidhaagufctl");
/// The relay that impairs a link.
pub const IMPAIR: Program = Program::named("impair");
/// Sends packets on by fixed addresses.
pub const COPIER: Program = Program::named("copier");
/// Sends SYNs of clients that don't exist.
pub const FILL: Program = Program::named("fill");
/// Sends a segment with forged addresses.
pub const FORGE: Program = Program::named("forge");
/// Waits.
pub const SLEEP: Program = Program::named("sleep");

impl Program {
    /// The program of that name, which the table must have.
    const fn named(name: &'static str) -> Program {
        assert!(has_line(TABLE.as_bytes(), name.as_bytes()), "rig/programs.txt lacks a program");
        Program(name)
    }

    /// Its name, by which it is found on the path.
    pub fn name(self) -> &'static str {
        self.0
    }

    /// The Debian package that has it.
    pub fn package(self) -> &'static str {
        let mut lines = TABLE.lines().map(str::split_whitespace);
        let line = lines.find(|line| line.clone().next() == Some(self.0));
        line.and_then(|mut words| words.nth(1)).expect("it is in the table")
    }

    /// A command that starts it.
    pub fn command(self) -> Command {
        Command::new(self.0)
    }

    /// Runs it to its end. For tests: where it is missing, they fail with the package that has it.
    pub fn run(self, words: &[&str]) -> Output {
        self.command().args(words).output().unwrap_or_else(|error| {
            panic!("{}, of Debian's package {}: {error}", self.0, self.package())
        })
    }
}

/// Whether a line of the table begins with that word.
const fn has_line(table: &[u8], word: &[u8]) -> bool {
    let mut at = 0;
    while at < table.len() {
        if (at == 0 || table[at - 1] == b'\n') && is_word_at(table, at, word) {
            return true;
        }
        at += 1;
    }
    false
}

const fn is_word_at(table: &[u8], at: usize, word: &[u8]) -> bool {
    let end = at + word.len();
    if end >= table.len() || table[end] != b' ' {
        return false;
    }
    let mut k = 0;
    while k < word.len() && table[at + k] == word[k] {
        k += 1;
    }
    k == word.len()
}

#[cfg(test)]
mod tests {
    use super::{has_line, IP, NIDHAAGUFD};

    #[test]
    fn words_are_found_at_the_beginning_of_a_line_alone() {
        let has = |word: &str| {
            has_line(b"# p q\nip iproute2 drills\nss iproute2 tests\n", word.as_bytes())
        };
        assert!(has("ip") && has("ss"));
        for other in ["i", "ips", "iproute2", "drills", "tests", "s", "q", "nft"] {
            assert!(!has(other), "{other}");
        }
    }

    #[test]
    fn packages_are_told() {
        assert_eq!((IP.package(), NIDHAAGUFD.package()), ("iproute2", "-"));
    }
}
