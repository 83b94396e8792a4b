//! PostgreSQL at a server: a replica with its own name and an empty table of payments.

use crate::lab::network::{balanced, direct, gateway, server, CLIENT, SERVER_PORT};
use crate::lab::{output, Failure, Lab};
use programs::{CP, INITDB, PG_CTL, PSQL, SETPRIV};
use std::fs;
use std::path::PathBuf;

/// What each replica has from the beginning, beside its name.
const TABLES: &str =
    "create table payments (id int primary key, note text); create table replica (name text)";

/// A PostgreSQL server in its namespace; it is stopped when it is dropped.
#[derive(Debug)]
pub struct Postgres {
    /// The number of its server.
    pub number: usize,
    lab: Lab,
    data: PathBuf,
    log: PathBuf,
    running: bool,
}

/// A client's connection, as the replica's own log tells it.
#[derive(Clone, Debug, PartialEq, Eq)]
pub struct Logged {
    /// The client's port.
    pub port: u16,
    /// Whether the replica has seen its end.
    pub ended: bool,
}

impl Postgres {
    /// Starts replicas on the first servers, at once.
    pub fn start_all(lab: &Lab, servers: usize) -> Result<Vec<Postgres>, Failure> {
        template(lab)?;
        std::thread::scope(|scope| {
            let starts: Vec<_> =
                (0..servers).map(|k| scope.spawn(move || Postgres::start(lab, k))).collect();
            starts.into_iter().map(|start| start.join().expect("no panic in start")).collect()
        })
    }

    /// Makes the replica of server `k` and starts it.
    pub fn start(lab: &Lab, k: usize) -> Result<Postgres, Failure> {
        let from = template(lab)?;
        let (data, log) =
            (lab.run.join(format!("data{k}")), lab.run.join(format!("postgres{k}.log")));
        output(lab.command(&server(k), CP).arg("-a").args([&from, &data]))?;
        let trusted = format!(
            "host all postgres {CLIENT}/32 trust\nhost all postgres {}/32 trust\n",
            gateway(k)
        );
        fs::write(data.join("pg_hba.conf"), trusted)?;
        let addresses = format!("listen_addresses = '{},{}'\n", balanced(k), direct(k));
        fs::write(data.join("postgresql.auto.conf"), addresses + &settings())?;
        let mut made = Postgres { number: k, lab: lab.clone(), data, log, running: false };
        made.start_again()?;
        made.ask(&format!("{TABLES}; insert into replica values ('replica {k}')"))?;
        Ok(made)
    }

    /// Starts it again, with the data it had.
    pub fn start_again(&mut self) -> Result<(), Failure> {
        let log = self.log.display().to_string();
        self.control(&["-l", &log, "start"])?;
        self.running = true;
        Ok(())
    }

    /// Stops it: sessions that are left are cut, committed rows are kept.
    pub fn stop(&mut self) -> Result<(), Failure> {
        self.control(&["-m", "fast", "stop"])?;
        self.running = false;
        Ok(())
    }

    /// Whether it was started and not stopped since.
    pub fn is_running(&self) -> bool {
        self.running
    }

    /// Asks the replica over its direct address, from the director's namespace: rows, one to a line.
    pub fn ask(&self, sql: &str) -> Result<Vec<String>, Failure> {
        let mut psql = self.lab.command("director", PSQL);
        psql.args(["-X", "-A", "-t", "-q", "-v", "ON_ERROR_STOP=1", "-U", "postgres"]);
        psql.args(["-h", &direct(self.number), "-p", SERVER_PORT, "-d", "postgres", "-c", sql]);
        Ok(output(&mut psql)?.lines().map(String::from).collect())
    }

    /// The client's sessions that the replica has now.
    pub fn sessions(&self) -> Result<u32, Failure> {
        let sql = format!("select count(*) from pg_stat_activity where client_addr = '{CLIENT}'");
        let rows = self.ask(&sql)?;
        let count = rows.first().and_then(|row| row.parse().ok());
        count.ok_or_else(|| Failure(format!("'{sql}' gave {rows:?}")))
    }

    /// Every connection of the client since the replica was made, the oldest first, from the replica's log.
    pub fn connections(&self) -> Result<Vec<Logged>, Failure> {
        Ok(connections(&fs::read_to_string(&self.log)?))
    }

    fn control(&self, args: &[&str]) -> Result<(), Failure> {
        let mut command = self.lab.command(&server(self.number), SETPRIV);
        command.args(AS_POSTGRES).arg(PG_CTL.name());
        command.args(["-w", "-s", "-t", "60", "-D"]).arg(&self.data).args(args);
        let done = output(&mut command);
        let log = || fs::read_to_string(&self.log).unwrap_or_default();
        done.map(|_| ()).map_err(|failure| Failure(format!("{failure}\n{}", log())))
    }
}

impl Drop for Postgres {
    fn drop(&mut self) {
        if self.running {
            // What is left is removed by rig/drill.
            let _ = self.control(&["-m", "immediate", "stop"]);
        }
    }
}

const AS_POSTGRES: [&str; 3] = ["--reuid=postgres", "--regid=postgres", "--clear-groups"];

/// Settings of all replicas. The log tells each connection: the drill holds the director's words against it.
fn settings() -> String {
    format!(
        "port = {SERVER_PORT}\nunix_socket_directories = ''\nfsync = off\nshared_buffers = '16MB'\n\
         dynamic_shared_memory_type = mmap\nlog_connections = on\nlog_disconnections = on\n"
    )
}

/// The data directory that all replicas are copies of, made once: initdb is slow.
fn template(lab: &Lab) -> Result<PathBuf, Failure> {
    let path = lab.template.clone();
    if !path.exists() {
        // In a namespace, like all that runs for long: there rig/drill finds it.
        let mut command = lab.command("director", SETPRIV);
        command.args(AS_POSTGRES).arg(INITDB.name()).arg("-D").arg(&path);
        command.args(["-U", "postgres", "-A", "trust", "--no-sync", "--wal-segsize=1"]);
        command.args(["--locale=C", "--encoding=UTF8"]);
        output(&mut command)?;
    }
    Ok(path)
}

/// The client's connections that a log tells.
fn connections(log: &str) -> Vec<Logged> {
    let mut found: Vec<Logged> = Vec::new();
    for line in log.lines() {
        let Some(port) = client_port(line) else {
            continue;
        };
        if line.contains("connection received:") {
            found.push(Logged { port, ended: false });
        } else if line.contains("disconnection:") {
            // The newest one: a port may be used again.
            let newest = found.iter_mut().rev().find(|connection| connection.port == port);
            newest.into_iter().for_each(|connection| connection.ended = true);
        }
    }
    found
}

/// The port in a line that names the client's address.
fn client_port(line: &str) -> Option<u16> {
    let (_, rest) = line.split_once(&format!("host={CLIENT} port="))?;
    rest.split_whitespace().next()?.parse().ok()
}

#[cfg(test)]
mod tests {
    use super::*;

    #[test]
    fn the_log_tells_the_clients_connections() {
        let log = "LOG:  connection received: host=10.0.0.1 port=40000\n\
            LOG:  connection authorized: user=postgres database=postgres application_name=psql\n\
            LOG:  connection received: host=10.1.0.2 port=40001\n\
            LOG:  connection received: host=10.0.0.1 port=40002\n\
            LOG:  disconnection: session time: 0:00:00.1 user=postgres database=postgres host=10.0.0.1 port=40000\n\
            LOG:  connection received: host=10.0.0.1 port=40000\n";
        let want = [(40000, true), (40002, false), (40000, false)];
        let want: Vec<Logged> = want.map(|(port, ended)| Logged { port, ended }).into();
        assert_eq!(connections(log), want);
    }
}
