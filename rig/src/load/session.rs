//! A client's session: a real `psql` through the virtual address, kept open.

use crate::lab::network::{self, balanced, VIRTUAL, VIRTUAL_PORT};
use crate::lab::{ensure, fail, wait_for, Failure, Lab, Running};
use programs::PSQL;
use std::io::{BufRead, BufReader, Read, Write};
use std::process::{ChildStdin, Stdio};
use std::sync::mpsc::{channel, Receiver, Sender};
use std::time::{Duration, Instant};

/// How long a statement, the opening or the end may take.
const PATIENCE: Duration = Duration::from_secs(30);
/// The line after the last line of an answer.
const MARK: &str = "-- end of the answer --";
/// What the client's kernel says while each of its ports is in use, or was too short a time ago.
const NO_PORT: &str = "Cannot assign requested address";
/// Where a session is, in the replica's own words.
const WHERE: &str = "select name, inet_server_addr(), inet_client_port() from replica";

/// What psql wrote, a line at a time.
enum Said {
    Answer(String),
    Complaint(String),
}

/// An open session.
pub struct Session {
    /// The number of the server on which it began.
    pub server: usize,
    /// The client's port.
    pub port: u16,
    lab: Lab,
    running: Running,
    input: ChildStdin,
    said: Receiver<Said>,
}

impl Session {
    /// Opens a session through the virtual address, as soon as the client has a port for it, and asks which replica answers.
    pub fn open(lab: &Lab) -> Result<Session, Failure> {
        wait_for("a port for a session", PATIENCE, || match Session::start(lab) {
            Err(failure) if failure.0.contains(NO_PORT) => Ok(None),
            started => started.map(Some),
        })
    }

    fn start(lab: &Lab) -> Result<Session, Failure> {
        let mut command = lab.command("client", PSQL);
        command.args(["-X", "-A", "-t", "-q", "-v", "ON_ERROR_STOP=1", "-U", "postgres"]);
        command.args(["-h", VIRTUAL, "-p", VIRTUAL_PORT, "-d", "postgres"]);
        command.stdin(Stdio::piped()).stdout(Stdio::piped()).stderr(Stdio::piped());
        let mut running = Running::start(&mut command)?;
        let (sender, said) = channel();
        let child = &mut running.child;
        pass_on(child.stdout.take().expect("a pipe was asked for"), Said::Answer, sender.clone());
        pass_on(child.stderr.take().expect("a pipe was asked for"), Said::Complaint, sender);
        let input = child.stdin.take().expect("a pipe was asked for");
        let mut session = Session { server: 0, port: 0, lab: lab.clone(), running, input, said };
        let rows = session.ask(WHERE)?;
        (session.server, session.port) = place(&rows)?;
        Ok(session)
    }

    /// Sends a statement and waits for its rows, one to a line, columns parted by `|`. An error of any kind ends the session.
    pub fn ask(&mut self, sql: &str) -> Result<Vec<String>, Failure> {
        let unheard = writeln!(self.input, "{sql};\n\\echo {MARK}").is_err();
        let deadline = Instant::now() + PATIENCE;
        let (mut rows, mut complaints) = (Vec::new(), Vec::new());
        loop {
            let left = deadline.saturating_duration_since(Instant::now());
            match self.said.recv_timeout(left) {
                Ok(Said::Answer(line)) if line == MARK => return Ok(rows),
                Ok(Said::Answer(line)) => rows.push(line),
                Ok(Said::Complaint(line)) => complaints.push(line),
                Err(_) => break,
            }
        }
        let how = if unheard || !self.running.is_alive()? { "ended" } else { "gave no answer" };
        fail(format!("the session {how} at '{sql}': {}", complaints.join("; ")))
    }

    /// Ends the session; when this returns, the last packet has been through the director.
    pub fn end(mut self) -> Result<(), Failure> {
        writeln!(self.input, "\\q")?;
        let status = self.running.wait(PATIENCE)?;
        ensure(status.success(), format!("psql ended with {status}"))?;
        network::wait_until_closed(&self.lab, self.server, self.port)
    }
}

/// Sends each line that comes.
fn pass_on(from: impl Read + Send + 'static, kind: fn(String) -> Said, to: Sender<Said>) {
    let lines = BufReader::new(from).lines().map_while(Result::ok);
    std::thread::spawn(move || lines.for_each(|line| drop(to.send(kind(line)))));
}

/// The server's number and the client's port; the replica's name and its address must agree.
fn place(rows: &[String]) -> Result<(usize, u16), Failure> {
    let strange = || Failure(format!("the replica answered {rows:?} to '{WHERE}'"));
    let [row] = rows else { return Err(strange()) };
    let words: Vec<&str> = row.split('|').collect();
    let [name, address, port] = words.as_slice() else {
        return Err(strange());
    };
    let number = name.strip_prefix("replica ").and_then(|number| number.parse().ok());
    let number: usize = number.ok_or_else(strange)?;
    ensure(*address == balanced(number), format!("{name} answers from {address}"))?;
    Ok((number, port.parse().map_err(|_| strange())?))
}

#[cfg(test)]
mod tests {
    use super::*;

    #[test]
    fn the_place_is_read_and_name_and_address_must_agree() {
        let read = |row: &str| place(&[row.to_string()]);
        assert_eq!(read("replica 1|10.2.0.5|40000"), Ok((1, 40000)));
        for wrong in
            ["replica 1|10.1.0.5|40000", "replica|10.1.0.5|40000", "replica 1|10.2.0.5", ""]
        {
            assert!(read(wrong).is_err(), "{wrong}");
        }
        assert!(place(&[]).is_err());
    }
}
