//! HAProxy in TCP mode at the director: it ends the client's connection and makes one of its own to a replica.

use crate::lab::network::{direct, SERVER_PORT, VIRTUAL_PORT};
use crate::lab::{ensure, wait_for, Failure, Lab, Running};
use programs::{HAPROXY, IP, SS};
use std::fmt::Write;
use std::fs;
use std::time::Duration;

/// The address at which it listens; nothing else uses it.
pub const ADDRESS: &str = "192.0.2.12";
/// How long it may take to start.
const PATIENCE: Duration = Duration::from_secs(20);

/// A running HAProxy; it ends when it is dropped.
pub struct Haproxy {
    _running: Running,
}

impl Haproxy {
    /// Starts it, and waits until it listens.
    pub fn start(lab: &Lab, replicas: usize) -> Result<Haproxy, Failure> {
        let file = lab.run.join("haproxy.cfg");
        fs::write(&file, configuration(replicas))?;
        lab.output("director", IP, &["address", "replace", &format!("{ADDRESS}/32"), "dev", "lo"])?;
        let mut command = lab.command("director", HAPROXY);
        command.args(["-db", "-q", "-f"]).arg(&file);
        let mut running = Running::start(
            command.stdout(lab.log("haproxy.log")?).stderr(lab.log("haproxy.log")?),
        )?;
        wait_for("HAProxy listens", PATIENCE, || {
            ensure(running.is_alive()?, "HAProxy ended")?;
            let listening = lab.output("director", SS, &["-Hltn"])?;
            Ok(listening.contains(&format!("{ADDRESS}:{VIRTUAL_PORT} ")).then_some(()))
        })?;
        Ok(Haproxy { _running: running })
    }
}

fn configuration(replicas: usize) -> String {
    let mut text = format!(
        "defaults
    mode tcp
    timeout connect 5s
    timeout client 1h
    timeout server 1h
listen postgres
    bind {ADDRESS}:{VIRTUAL_PORT}
    balance leastconn
"
    );
    for k in 0..replicas {
        writeln!(text, "    server s{k} {}:{SERVER_PORT}", direct(k)).expect("a string grows");
    }
    text
}
