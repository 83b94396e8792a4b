//! A director's table with connections of clients that don't exist.

use crate::lab::director::Director;
use crate::lab::network::{DEVICE, VIRTUAL, VIRTUAL_PORT};
use crate::lab::{wait_for, Failure, Lab, Running};
use programs::{FILL, IP};
use std::time::Duration;

/// The device by which these clients come.
const THEIRS: &str = "fill0";
/// Their addresses, which nobody has, and the first of them.
const ADDRESSES: &str = "10.9.0.0/16";
const FIRST: &str = "10.9.0.1:1024";
/// How long it may take.
const PATIENCE: Duration = Duration::from_secs(20);

/// Opens so many connections. The director sends their packets on, and the kernel drops them behind it: no replica hears of them.
pub fn fill(lab: &Lab, director: &Director, clients: usize) -> Result<(), Failure> {
    let ip = |args: &[&str]| lab.output("director", IP, args).map(|_| ());
    let rule = ["iif", DEVICE, "from", ADDRESSES, "blackhole"];
    ip(&[&["rule", "add"], &rule[..]].concat())?;
    let mut command = lab.command("director", FILL);
    let service = format!("{VIRTUAL}:{VIRTUAL_PORT}");
    // open: else they would be ended for their opening, while others are measured
    command.args([THEIRS, FIRST, &service, &clients.to_string(), "16", "open"]);
    let _running = Running::start_ready(&mut command, &lab.run.join("fill.log"))?;
    ip(&["link", "set", THEIRS, "up"])?;
    wait_for("the table gets full", PATIENCE, || {
        Ok((director.status()?.used as usize >= clients).then_some(()))
    })?;
    ip(&[&["rule", "delete"], &rule[..]].concat())
}
