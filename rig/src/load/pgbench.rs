//! Load by pgbench through the virtual address.

use crate::lab::network::{VIRTUAL, VIRTUAL_PORT};
use crate::lab::{ensure, Failure, Lab, Running, SIGALRM};
use programs::PGBENCH;
use std::fs;
use std::path::PathBuf;
use std::time::Duration;

/// A transaction of the load.
const SCRIPT: &str =
    "\\set id random(1, 1000)\nbegin;\nselect note from payments where id = :id;\n\
                      select name from replica;\nend;\n";
/// Longer than any drill: a load goes on until it is told to end.
const LONGEST: &str = "3600";
/// How long the last transactions may take.
const PATIENCE: Duration = Duration::from_secs(30);

/// What a load is to do.
#[derive(Clone, Copy, Debug)]
pub struct Plan {
    /// What it is called; no two at once have one name.
    pub name: &'static str,
    /// How many clients.
    pub clients: usize,
    /// Whether each transaction has a connection of its own.
    pub reconnect: bool,
    /// Transactions a second at most. Ended connections keep their slots for a while: too many would fill the table.
    pub rate: u32,
}

/// What pgbench says at its end.
#[derive(Clone, Copy, Debug, PartialEq)]
pub struct Report {
    /// Transactions that were done.
    pub transactions: u64,
    /// Transactions that failed.
    pub failed: u64,
    /// Transactions a second.
    pub rate: f64,
}

/// A running pgbench.
#[derive(Debug)]
pub struct Load {
    running: Running,
    log: PathBuf,
    name: &'static str,
}

impl Load {
    /// Starts it; it goes on until it is told to end.
    pub fn start(lab: &Lab, plan: Plan) -> Result<Load, Failure> {
        let (script, log) = (lab.run.join("load.sql"), lab.run.join(format!("{}.log", plan.name)));
        fs::write(&script, SCRIPT)?;
        let output = fs::File::create(&log)?;
        let mut command = lab.command("client", PGBENCH);
        command.args(["-n", "-T", LONGEST, "-c", &plan.clients.to_string(), "-f"]).arg(&script);
        command.args(["-R", &plan.rate.to_string()]).args(plan.reconnect.then_some("-C"));
        command.args(["-h", VIRTUAL, "-p", VIRTUAL_PORT, "-U", "postgres", "postgres"]);
        let running = Running::start(command.stdout(output.try_clone()?).stderr(output))?;
        Ok(Load { running, log, name: plan.name })
    }

    /// Fails if it has ended by itself.
    pub fn check(&mut self) -> Result<(), Failure> {
        let alive = self.running.is_alive()?;
        ensure(alive, format!("the load {} broke off: {}", self.name, self.said()))
    }

    /// Ends it as at the end of its time: each client finishes its transaction and leaves. Any failure of a transaction or
    /// connection is a failure of the load.
    pub fn end(mut self) -> Result<Report, Failure> {
        self.check()?;
        self.running.signal(SIGALRM)?;
        let status = self.running.wait(PATIENCE)?;
        let said = self.said();
        let words = format!("the load {} had a failure ({status}): {said}", self.name);
        let report = report(&said).ok_or_else(|| Failure(words.clone()))?;
        ensure(status.success() && report.failed == 0 && !said.contains("error:"), words)?;
        Ok(report)
    }

    fn said(&self) -> String {
        fs::read_to_string(&self.log).unwrap_or_default().trim().to_string()
    }
}

/// Reads what pgbench says at its end; a run that was aborted has no report.
pub fn report(text: &str) -> Option<Report> {
    if text.contains("Run was aborted") {
        return None;
    }
    let after = |words: &str| {
        let rest = text.lines().find_map(|line| line.strip_prefix(words))?;
        rest.split_whitespace().next()
    };
    Some(Report {
        transactions: after("number of transactions actually processed: ")?.parse().ok()?,
        failed: after("number of failed transactions: ")?.parse().ok()?,
        rate: after("tps = ")?.parse().ok()?,
    })
}

#[cfg(test)]
mod tests {
    use super::*;

    const TEXT: &str = "\
pgbench (15.10 (Debian 15.10-0+deb12u1))
transaction type: load.sql
scaling factor: 1
query mode: simple
number of clients: 2
number of threads: 1
maximum number of tries: 1
duration: 3600 s
number of transactions actually processed: 412
number of failed transactions: 3 (0.728%)
latency average = 4.112 ms
average connection time = 2.401 ms
tps = 99.512000 (including reconnection times)
";

    #[test]
    fn a_report_is_read() {
        let want = Report { transactions: 412, failed: 3, rate: 99.512 };
        assert_eq!(report(TEXT), Some(want));
    }

    #[test]
    fn an_aborted_or_cut_run_has_no_report() {
        let aborted =
            format!("{TEXT}pgbench: error: Run was aborted; the above results are incomplete.\n");
        assert_eq!(report(&aborted), None);
        assert_eq!(report(TEXT.split("tps").next().unwrap()), None);
        assert_eq!(report(""), None);
    }
}
