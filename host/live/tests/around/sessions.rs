//! TCP between the hosts: servers that say who they are and then repeat each line, and clients of them.

use crate::network::Network;
use std::io::{self, BufRead, BufReader, Write};
use std::net::{TcpListener, TcpStream};
use std::time::Duration;

/// How long a connection or an answer may take. An ARP request may wait for a second.
const PATIENCE: Duration = Duration::from_secs(4);

/// A server at that host, until the test's process ends.
pub fn listen(network: &Network, host: &str, at: &str) {
    let listener = network.enter(host, || TcpListener::bind(at)).unwrap();
    let name = format!("{host} {at}\n");
    std::thread::spawn(move || {
        for stream in listener.incoming().map_while(Result::ok) {
            let name = name.clone();
            std::thread::spawn(move || serve(stream, &name));
        }
    });
}

fn serve(mut stream: TcpStream, name: &str) -> io::Result<()> {
    stream.write_all(name.as_bytes())?;
    let mut lines = BufReader::new(stream.try_clone()?);
    let mut line = String::new();
    while lines.read_line(&mut line)? > 0 {
        stream.write_all(line.as_bytes())?;
        line.clear();
    }
    Ok(())
}

/// An open connection.
pub struct Session {
    /// Who answered.
    pub server: String,
    stream: TcpStream,
    lines: BufReader<TcpStream>,
}

impl Session {
    /// Connects from that host, and hears who answers.
    pub fn open(network: &Network, host: &str, to: &str) -> io::Result<Session> {
        let to = to.parse().unwrap();
        let stream = network.enter(host, || TcpStream::connect_timeout(&to, PATIENCE))?;
        stream.set_read_timeout(Some(PATIENCE))?;
        stream.set_write_timeout(Some(PATIENCE))?;
        let lines = BufReader::new(stream.try_clone()?);
        let mut session = Session { server: String::new(), stream, lines };
        session.server = session.read()?;
        Ok(session)
    }

    /// Says a line that must be repeated.
    pub fn must_repeat(&mut self, line: &str) {
        assert_eq!(self.say(line).unwrap(), line, "of {}", self.server);
    }

    /// Says a line, and gives what is said to it.
    pub fn say(&mut self, line: &str) -> io::Result<String> {
        self.stream.write_all(format!("{line}\n").as_bytes())?;
        self.read()
    }

    fn read(&mut self) -> io::Result<String> {
        let mut line = String::new();
        self.lines.read_line(&mut line)?;
        Ok(line.trim_end().to_string())
    }
}

/// A connection must come about, to that server.
pub fn must_reach(network: &Network, host: &str, to: &str, server: &str) -> Session {
    let mut session = Session::open(network, host, to)
        .unwrap_or_else(|error| panic!("from {host} to {to}: {error}"));
    assert_eq!(session.server, server, "from {host} to {to}");
    session.must_repeat("as one");
    session
}
