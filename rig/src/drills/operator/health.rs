//! The example of a health check of `contrib/`, beside an operator who drains.

use super::Drill;
use crate::lab::director::Director;
use crate::lab::status::{Row, Standing};
use crate::lab::{ensure, Failure, Lab, Running};
use programs::BASH;
use std::fs;
use std::time::Instant;

/// The script, as an operator would start it.
const SCRIPT: &str = include_str!("../../../../contrib/health-check");
const NAME: &str = "health-check";
/// A round takes a quarter of a second; two in a row count.
const FLAGS: [&str; 8] =
    ["--check", "postgres", "--interval", "0.2", "--failures", "2", "--successes", "2"];

/// Starts the health check of all servers.
fn start(lab: &Lab, director: &Director) -> Result<Running, Failure> {
    let script = lab.run.join(NAME);
    fs::write(&script, SCRIPT)?;
    let mut command = lab.command("director", BASH);
    command.arg(&script).arg("--config").arg(director.configuration());
    command.arg("--socket").arg(director.socket()).args(FLAGS);
    Running::start(command.stderr(lab.log("health-check.log")?))
}

impl Drill<'_> {
    /// PostgreSQL stops on one replica while another is drained: the check says the one down and up again, and leaves weights alone.
    pub fn check_health(&mut self, stopped: usize, drained: usize) -> Result<(), Failure> {
        let mut check = start(self.lab, &self.service.director)?;
        let begin = Instant::now();
        self.service.replicas[stopped].stop()?;
        self.await_row(stopped, "down", |row| row.standing == Standing::Down)?;
        self.tell(format!(
            "PostgreSQL on replica {stopped} is stopped: {:.1} s later the health check has said it down",
            begin.elapsed().as_secs_f64()
        ));
        self.must_open_elsewhere(&[stopped, drained])?;
        self.service.director.drain(stopped)?;
        self.service.replicas[stopped].start_again()?;
        self.await_row(stopped, "up, and drained", |row| row.standing == Standing::MayBeUnplugged)?;
        self.must_open_elsewhere(&[stopped, drained])?;
        self.tell(format!(
            "an operator drains it meanwhile; it is up again, and still drained, as is replica {drained}"
        ));
        self.service.director.set_weight(stopped, 1)?;
        let row = self.service.look()?.rows.swap_remove(drained);
        ensure(row.standing == Standing::MayBeUnplugged, format!("it was drained: {row:?}"))?;
        let server = self.service.open()?;
        ensure(server == stopped, format!("the next session went to replica {server}"))?;
        self.tell(format!("with weight 1 the next session is on replica {stopped}"));
        ensure(check.is_alive()?, "the health check has ended by itself")
    }

    fn await_row(
        &mut self,
        server: usize,
        what: &str,
        wished: fn(&Row) -> bool,
    ) -> Result<(), Failure> {
        let what = format!("replica {server} is {what}");
        self.service.wait_until(&what, |status| wished(&status.rows[server])).map(|_| ())
    }

    fn must_open_elsewhere(&mut self, refused: &[usize]) -> Result<(), Failure> {
        let server = self.service.open()?;
        ensure(!refused.contains(&server), format!("a new session went to replica {server}"))
    }
}
