//! A running daemon, and what is said to it.

use crate::link;
use crate::place::{command, Place};
use live::system::{self, Waited};
use programs::KILL;
use std::fs;
use std::io::{BufRead, BufReader, ErrorKind, Read, Write};
use std::os::unix::net::UnixStream;
use std::path::PathBuf;
use std::process::{Child, Command, Stdio};
use std::time::{Duration, Instant};

/// Long enough for a busy machine; nothing waits so long where all is well.
pub const PATIENCE: Duration = Duration::from_secs(10);

/// A daemon that said it is ready, with its device up.
pub struct Daemon {
    child: Child,
    /// What was read of its log.
    log: String,
    pub socket: String,
    /// What it said of the connections that go on, if some do.
    pub words: String,
    pub ready: String,
}

impl Daemon {
    pub fn start(place: &Place, config: &str, flags: &[&str]) -> Daemon {
        let daemon = Daemon::run(command(place, config, "nid0", flags), place);
        link::ip("link set nid0 up");
        daemon
    }

    /// Takes over from the daemon of that place.
    pub fn take_over(place: &Place, config: &str, flags: &[&str]) -> Daemon {
        Daemon::run(command(place, config, "nid0", &[&["--take-over"], flags].concat()), place)
    }

    /// Runs a command of the daemon until it is ready.
    pub fn run(mut command: Command, place: &Place) -> Daemon {
        let mut daemon = Daemon::of_child(command.spawn().unwrap(), place);
        daemon.await_ready();
        daemon
    }

    /// Waits until it says that it is ready.
    pub fn await_ready(&mut self) {
        let mut out = BufReader::new(self.child.stdout.take().unwrap());
        while out.read_line(&mut self.ready).unwrap() > 0 && !self.ready.starts_with("ready: ") {
            self.words.push_str(&std::mem::take(&mut self.ready));
        }
        if self.ready.is_empty() {
            let outcome = self.outcome();
            panic!("not ready: {:?} {outcome:?}", self.words);
        }
        self.child.stdout = Some(out.into_inner());
    }

    /// The daemon of that place, which has said nothing yet.
    pub fn of_child(child: Child, place: &Place) -> Daemon {
        let socket = place.file("sock");
        let [log, words, ready] = [const { String::new() }; 3];
        Daemon { child, log, socket, words, ready }
    }

    pub fn connect(&self) -> UnixStream {
        connect(&self.socket)
    }

    /// The whole answer to a command.
    pub fn ask(&self, command: &str) -> String {
        ask(&self.socket, command)
    }

    /// The text of an answer that must be good.
    pub fn text(&self, command: &str) -> String {
        let answer = self.ask(command);
        answer.strip_prefix("ok\n").unwrap_or_else(|| panic!("{command}: {answer}")).to_string()
    }

    /// Its number.
    pub fn process(&self) -> u32 {
        self.child.id()
    }

    /// Sends a signal by its name.
    pub fn signal(&self, name: &str) {
        send_signals(name, &[&self.process().to_string()]);
    }

    /// Sends each of its threads a signal.
    pub fn signal_threads(&self, name: &str) {
        for thread in self.threads() {
            send_signals(name, &[thread.file_name().unwrap().to_str().unwrap()]);
        }
    }

    /// The folders of its threads, which are called after their numbers.
    pub fn threads(&self) -> Vec<PathBuf> {
        let threads = fs::read_dir(format!("/proc/{}/task", self.process())).unwrap();
        threads.map(|thread| thread.unwrap().path()).collect()
    }

    /// Stops it, surely.
    pub fn stop(&self) {
        self.signal("STOP");
        self.await_state('T');
    }

    /// Waits until all its threads are in a state, by the letter that Linux has for it: stopped, sleeping.
    pub fn await_state(&self, letter: char) {
        let stat = |thread: &PathBuf| fs::read_to_string(thread.join("stat")).unwrap();
        let is_in_state = |thread: &PathBuf| stat(thread).contains(&format!(") {letter} "));
        wait_until("the daemon's state", || self.threads().iter().all(is_in_state));
    }

    /// The processor's time that it has taken, with all its threads.
    pub fn processor_time(&self) -> Duration {
        let stat = fs::read_to_string(format!("/proc/{}/stat", self.child.id())).unwrap();
        // after the name, which ends in the last parenthesis: the user's and the system's time are fields 14 and 15
        let fields = stat.rsplit_once(") ").unwrap().1.split(' ');
        let ticks: u64 = fields.skip(11).take(2).map(|field| field.parse::<u64>().unwrap()).sum();
        Duration::from_millis(10 * ticks)
    }

    /// Waits until its log has these words; gives the log so far.
    pub fn await_log(&mut self, words: &str) -> &str {
        self.await_log_times(words, 1)
    }

    /// Waits until its log has these words so many times.
    pub fn await_log_times(&mut self, words: &str, times: usize) -> &str {
        let deadline = Instant::now() + PATIENCE;
        while self.log.matches(words).count() < times {
            let left = deadline.saturating_duration_since(Instant::now());
            assert!(left > Duration::ZERO, "{words:?} doesn't come: {}", self.log);
            let pipe = self.child.stderr.as_mut().unwrap();
            let mut file = [Waited::new(pipe, true, false)];
            system::wait(&mut file, left).unwrap();
            if file[0].is_ready() {
                let mut bytes = [0; 4_096];
                let length = pipe.read(&mut bytes).unwrap();
                assert!(length > 0, "{words:?} isn't in the log: {}", self.log);
                self.log.push_str(&String::from_utf8_lossy(&bytes[..length]));
            }
        }
        &self.log
    }

    /// Nobody reads its log any more.
    pub fn close_log(&mut self) {
        self.child.stderr = None;
    }

    /// Kills it at once, sooner than a signal that a program sends.
    pub fn kill(mut self) {
        self.child.kill().unwrap();
        self.child.wait().unwrap();
    }

    /// Whether it has ended.
    pub fn has_ended(&mut self) -> bool {
        self.child.try_wait().unwrap().is_some()
    }

    /// Waits for its end.
    pub fn wait(mut self) -> Outcome {
        self.outcome()
    }

    /// The same of a daemon that is replaced later.
    pub fn outcome(&mut self) -> Outcome {
        let (code, out, rest) = outcome(&mut self.child);
        (code, out, format!("{}{rest}", self.log))
    }

    /// Ends it by a signal, as an operator would: it must leave nothing behind.
    pub fn end_by(mut self, signal: &str) {
        self.must_end_by(signal);
    }

    /// The same of a daemon that is replaced later.
    pub fn must_end_by(&mut self, signal: &str) {
        self.signal(signal);
        let (code, out, log) = self.outcome();
        assert_eq!((code, out.as_str()), (Some(0), ""), "{log}");
        let last = log.lines().last().unwrap_or_default();
        assert!(last.starts_with(&format!("<5>nidhaagufd: ended by SIG{signal}; clock ")), "{log}");
        assert!(last.contains("; inbound ") && last.contains("; outbound "), "{log}");
        assert!(!PathBuf::from(&self.socket).exists(), "the socket file is still there");
    }
}

/// Sends a signal, by its name or number, to each of these processes or threads.
pub fn send_signals(name: &str, receivers: &[&str]) {
    let words = [&["-s", name], receivers].concat();
    assert!(KILL.run(&words).status.success(), "{words:?}");
}

fn connect(socket: &str) -> UnixStream {
    let stream = UnixStream::connect(socket).unwrap();
    stream.set_read_timeout(Some(PATIENCE)).unwrap();
    stream.set_write_timeout(Some(PATIENCE)).unwrap();
    stream
}

/// The whole answer to a command of the daemon at that socket: `ok` or `error: ...`, and the text.
pub fn ask(socket: &str, command: &str) -> String {
    let mut stream = connect(socket);
    stream.write_all(format!("{command}\n").as_bytes()).unwrap();
    let mut answer = Vec::new();
    match stream.read_to_end(&mut answer) {
        // so ends an answer to a client that has said more than a command
        Err(error) if error.kind() == ErrorKind::ConnectionReset => {}
        other => drop(other.unwrap()),
    }
    String::from_utf8(answer).unwrap()
}

impl Drop for Daemon {
    /// After a failed test.
    fn drop(&mut self) {
        let _ = self.child.kill();
        let _ = self.child.wait();
    }
}

/// Waits for a condition.
pub fn wait_until(what: &str, mut is_so: impl FnMut() -> bool) {
    let deadline = Instant::now() + PATIENCE;
    while !is_so() {
        assert!(Instant::now() < deadline, "{what}: it doesn't come to that");
        std::thread::sleep(Duration::from_millis(1));
    }
}

/// An exit code, the output and the log.
pub type Outcome = (Option<i32>, String, String);

/// Runs a command to its end, which must come in time.
pub fn output(command: &mut Command) -> Outcome {
    outcome(&mut command.stdout(Stdio::piped()).stderr(Stdio::piped()).spawn().unwrap())
}

/// Waits for a process' end, which must come in time.
pub fn outcome(child: &mut Child) -> Outcome {
    let deadline = Instant::now() + PATIENCE;
    while child.try_wait().unwrap().is_none() {
        if Instant::now() > deadline {
            child.kill().unwrap();
            panic!("it doesn't end: {:?}", child.wait());
        }
        std::thread::sleep(Duration::from_millis(1));
    }
    let (mut out, mut log) = (String::new(), String::new());
    // what is no pipe, or was read by another, has nothing here
    if let Some(mut pipe) = child.stdout.take() {
        pipe.read_to_string(&mut out).unwrap();
    }
    if let Some(mut pipe) = child.stderr.take() {
        pipe.read_to_string(&mut log).unwrap();
    }
    (child.wait().unwrap().code(), out, log)
}
