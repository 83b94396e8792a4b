//! The real programs at the director's host.

use crate::network::Network;
use programs::SETPRIV;
use std::fs;
use std::io::{BufRead, BufReader};
use std::path::PathBuf;
use std::process::{Child, Command, Output, Stdio};

/// A configuration in a file, and the daemon that serves by it; both go in the end.
pub struct Service {
    file: PathBuf,
    socket: PathBuf,
    daemon: Option<Child>,
}

impl Service {
    /// Writes the configuration, with a socket of its own.
    pub fn new(network: &Network, name: &str, config: &str) -> Service {
        let at =
            |ending: &str| std::env::temp_dir().join(format!("{}-{name}.{ending}", network.name));
        let (file, socket) = (at("conf"), at("sock"));
        fs::write(&file, format!("{config}socket {}\n", socket.display())).unwrap();
        Service { file, socket, daemon: None }
    }

    /// Starts the daemon, and waits until it serves.
    pub fn serve(mut self, network: &Network) -> Service {
        let mut command = Command::new(env!("CARGO_BIN_EXE_nidhaagufd"));
        command.arg("--config").arg(&self.file).stdout(Stdio::piped()).stderr(Stdio::null());
        let mut daemon = network.enter("director", || command.spawn()).unwrap();
        let mut line = String::new();
        BufReader::new(daemon.stdout.take().unwrap()).read_line(&mut line).unwrap();
        assert!(line.starts_with("ready: "), "{line}");
        self.daemon = Some(daemon);
        self
    }

    /// Kills the daemon; its device goes with it.
    pub fn kill(&mut self) {
        let mut daemon = self.daemon.take().expect("it serves");
        daemon.kill().unwrap();
        daemon.wait().unwrap();
    }

    /// Changes the configuration's text.
    pub fn rewrite(&self, from: &str, to: &str) {
        let text = fs::read_to_string(&self.file).unwrap();
        assert!(text.contains(from), "{text}");
        fs::write(&self.file, text.replace(from, to)).unwrap();
    }

    /// What the daemon answers to a command, which it must take.
    pub fn control(&self, network: &Network, words: &[&str]) -> String {
        let mut command = Command::new(env!("CARGO_BIN_EXE_nidhaagufctl"));
        let (code, told) = outcome(network, command.arg("--socket").arg(&self.socket).args(words));
        assert_eq!(code, Some(0), "{words:?}: {told}");
        told
    }

    /// `nidhaagufctl routes` with this configuration: its exit code and what it wrote.
    pub fn routes(&self, network: &Network, words: &[&str]) -> (Option<i32>, String) {
        let file = self.file.to_str().unwrap();
        routes(network, &[words, &["--config", file]].concat())
    }

    /// `routes --up` by a program that may change nothing of the network.
    pub fn routes_without_rights(&self, network: &Network) -> (Option<i32>, String) {
        let mut command = SETPRIV.command();
        command.args([
            "--bounding-set=-all",
            "--inh-caps=-all",
            env!("CARGO_BIN_EXE_nidhaagufctl"),
        ]);
        outcome(network, command.args(["routes", "--up", "--config"]).arg(&self.file))
    }

    /// The same; it must succeed.
    pub fn must_route(&self, network: &Network, action: &str) -> String {
        let (code, told) = self.routes(network, &[action]);
        assert_eq!(code, Some(0), "{action}: {told}");
        told
    }
}

/// `nidhaagufctl routes` with these words: its exit code and what it wrote.
pub fn routes(network: &Network, words: &[&str]) -> (Option<i32>, String) {
    let mut command = Command::new(env!("CARGO_BIN_EXE_nidhaagufctl"));
    outcome(network, command.arg("routes").args(words))
}

fn outcome(network: &Network, command: &mut Command) -> (Option<i32>, String) {
    let output = network.enter("director", || command.output()).unwrap();
    let Output { status, stdout, stderr } = output;
    (status.code(), String::from_utf8([stdout, stderr].concat()).unwrap())
}

impl Drop for Service {
    fn drop(&mut self) {
        if let Some(daemon) = &mut self.daemon {
            let _ = daemon.kill();
            let _ = daemon.wait();
        }
        let _ = fs::remove_file(&self.file);
        let _ = fs::remove_file(&self.socket);
    }
}
