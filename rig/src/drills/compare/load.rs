//! pgbench over one way, and what the program in the middle takes of the processor meanwhile.

use super::ways::Standing;
use crate::lab::{ensure, output, Failure, Lab};
use crate::load::pgbench::report;
use programs::{Program, IP, PGBENCH};
use std::fs;
use std::time::Instant;

/// Clock ticks in a second, in which the kernel tells a process's time.
const TICKS: f64 = 100.0;

/// What pgbench is asked to do.
#[derive(Clone, Copy, Debug)]
pub struct Kind {
    /// What it is called.
    pub title: &'static str,
    flags: &'static [&'static str],
    sql: &'static str,
    /// Whether each transaction has a connection of its own.
    pub reconnect: bool,
}

/// A client that waits for each answer.
pub const ONE_CLIENT: Kind = Kind {
    title: "1 client",
    flags: &["-M", "prepared", "-c", "1"],
    sql: "select 1;\n",
    reconnect: false,
};
/// More clients than the machine has processors.
pub const EIGHT_CLIENTS: Kind = Kind {
    title: "8 clients",
    flags: &["-M", "prepared", "-c", "8", "-j", "2"],
    sql: "select 1;\n",
    reconnect: false,
};
/// Answers that TCP hands to its link in pieces of up to 64 kB, which a TUN device is given as packets of 1,500 bytes.
pub const LARGE_ANSWERS: Kind =
    Kind { title: "answers of 100 kB", sql: "select repeat('x', 100000);\n", ..EIGHT_CLIENTS };
/// A connection for each transaction.
pub const CONNECTIONS: Kind = Kind {
    title: "connections",
    flags: &["-C", "-c", "8", "-j", "2"],
    sql: "select 1;\n",
    reconnect: true,
};

/// One measurement: transactions a second, and the share of one processor that the program in the middle took.
#[derive(Clone, Copy, Debug)]
pub struct Measured {
    /// Transactions a second.
    pub rate: f64,
    /// None where there is no program in the middle.
    pub share: Option<f64>,
}

impl Measured {
    /// What the program in the middle took of the processor's time for a transaction, in microseconds. Other work on the machine
    /// lowers the rate and the share alike.
    pub fn cost(&self) -> Option<f64> {
        self.share.map(|share| 1e6 * share / self.rate)
    }
}

/// Lets pgbench run for so many seconds, and looks what the program in the middle took meanwhile.
pub fn drive(lab: &Lab, way: &Standing, kind: &Kind, seconds: u32) -> Result<Measured, Failure> {
    let time = || way.program.map(|program| processor_time(lab, program)).transpose();
    let (begin, before) = (Instant::now(), time()?);
    let rate = pgbench(lab, way, kind, seconds)?;
    let elapsed = begin.elapsed().as_secs_f64();
    let share = time()?.zip(before).map(|(after, before)| (after - before) / elapsed);
    Ok(Measured { rate, share })
}

/// Runs pgbench; tells transactions a second. Any failure of a transaction or connection fails.
fn pgbench(lab: &Lab, way: &Standing, kind: &Kind, seconds: u32) -> Result<f64, Failure> {
    let script = lab.run.join("transaction.sql");
    fs::write(&script, kind.sql)?;
    let mut command = lab.command("client", PGBENCH);
    command.args(["-n", "-T", &seconds.to_string(), "-f"]).arg(script).args(kind.flags);
    command.args(["-h", &way.address, "-p", way.port, "-U", "postgres", "postgres"]);
    let said = output(&mut command)?;
    let report = report(&said).ok_or(Failure(format!("pgbench said: {said}")))?;
    ensure(report.failed == 0 && report.transactions > 0, format!("pgbench had failures: {said}"))?;
    Ok(report.rate)
}

/// The processes of that program in the director's namespace, each with the clock ticks that it has taken so far.
pub fn processes(lab: &Lab, program: Program) -> Result<Vec<(String, u64)>, Failure> {
    let there = output(IP.command().args(["netns", "pids", &lab.namespace("director")]))?;
    // A process may have ended meanwhile: it then has no such file.
    let ticks = |process: &str| {
        ticks_of(program.name(), &fs::read_to_string(format!("/proc/{process}/stat")).ok()?)
    };
    let found: Vec<(String, u64)> =
        there.lines().filter_map(|process| Some((process.into(), ticks(process)?))).collect();
    ensure(!found.is_empty(), format!("{} doesn't run", program.name()))?;
    Ok(found)
}

/// The processor time that the program has taken so far, in seconds.
fn processor_time(lab: &Lab, program: Program) -> Result<f64, Failure> {
    let ticks: u64 = processes(lab, program)?.iter().map(|(_, ticks)| ticks).sum();
    Ok(ticks as f64 / TICKS)
}

/// User and system time in a process's `stat`, if it is that program's: the 12th and 13th words after the name in brackets.
fn ticks_of(program: &str, stat: &str) -> Option<u64> {
    let (name, rest) = stat.rsplit_once(')')?;
    let mut words =
        name.ends_with(&format!("({program}")).then(|| rest.split_whitespace().skip(11))?;
    Some(words.next()?.parse::<u64>().ok()? + words.next()?.parse::<u64>().ok()?)
}

#[cfg(test)]
mod tests {
    use super::*;

    #[test]
    fn processor_time_is_read_by_name() {
        let stat = "812 (a (b) c) S 1 2 3 4 5 6 7 8 9 10 150 25 0 0";
        assert_eq!((ticks_of("a (b) c", stat), ticks_of("c", stat)), (Some(175), None));
    }
}
