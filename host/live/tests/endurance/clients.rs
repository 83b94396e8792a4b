//! Clients of the control socket that the daemon must outlast.

use crate::daemon::{output, PATIENCE};
use crate::model::VIRTUAL;
use crate::place::{as_nobody, control};
use crate::rig::Rig;
use live::control::connection::MOST_COMMAND;
use live::system::{self, Waited};
use reference::packets::{tcp, SYN};
use std::fs;
use std::io::{BufRead, BufReader, Read, Write};
use std::os::unix::fs::PermissionsExt;
use std::os::unix::net::UnixStream;
use std::process::{Child, ChildStdout, Stdio};
use std::sync::atomic::{AtomicBool, Ordering};
use std::sync::mpsc::{self, Receiver};
use std::thread::JoinHandle;
use std::time::{Duration, Instant};

/// Commands that nobody should send.
pub fn wrong_commands(rig: &mut Rig) {
    for (line, answer) in [
        ("", "error: expected a command: status, count, "),
        ("halt", "error: expected a command: status, count, "),
        ("\u{0}\u{1}\u{7f}", "error: expected a command: status, count, "),
        ("weight 0", "error: expected `weight N W`, got \"weight 0\"\n"),
        ("weight 0 65536", "error: expected a weight, 0 to 65535, got \"65536\"\n"),
        ("drain two", "error: expected a server's number or its ADDRESS:PORT, got \"two\"\n"),
        (
            "count 2",
            "error: there is no server of that number (5): the servers are 0 to 1, got 2\n",
        ),
    ] {
        let found = rig.daemon.ask(line);
        assert!(found.starts_with(answer), "{line:?}: {found}");
    }
    let socket = rig.daemon.socket.as_str();
    let (code, out, log) = output(control().args(["--socket", socket, "drain", "2"]));
    assert_eq!((code, out.as_str()), (Some(1), ""));
    assert!(log.starts_with("nidhaagufctl: there is no server of that number (5)"), "{log}");
    let (code, out, _) = output(control().args(["--socket", socket, "count", "0"]));
    assert_eq!((code, out.as_str()), (Some(0), "0\n"));
    rig.must_serve();
}

/// Commands without end, and clients that send nothing else as fast as they can: packets pass meanwhile.
pub fn garbage(rig: &mut Rig) {
    let long = rig.daemon.ask(&"x".repeat(MOST_COMMAND + 1));
    assert_eq!(long, "error: expected a command of at most 2048 bytes\n");
    let longest = rig.daemon.ask(&"x".repeat(MOST_COMMAND));
    assert!(longest.starts_with("error: expected a command: "), "{longest}");
    let (stop, floods) = (AtomicBool::new(false), 2);
    let socket = rig.daemon.socket.clone();
    let sent: u64 = std::thread::scope(|scope| {
        let flooders: Vec<_> = (0..floods).map(|_| scope.spawn(|| flood(&socket, &stop))).collect();
        for _ in 0..50 {
            rig.must_serve();
        }
        stop.store(true, Ordering::Relaxed);
        flooders.into_iter().map(|flooder| flooder.join().unwrap()).sum()
    });
    assert!(sent > 10, "the flood reached the daemon {sent} times only");
    rig.must_serve();
}

/// Sends garbage on one connection after the other; tells on how many.
fn flood(socket: &str, stop: &AtomicBool) -> u64 {
    let garbage = vec![0xA5; 1 << 20];
    let mut connections = 0;
    while !stop.load(Ordering::Relaxed) {
        let mut stream = UnixStream::connect(socket).unwrap();
        stream.set_write_timeout(Some(PATIENCE)).unwrap();
        // the daemon closes before it has read all, which is an error here
        assert!(stream.write_all(&garbage).is_err());
        connections += 1;
    }
    connections
}

/// Two hundred clients at once: each gets its answer.
pub fn two_hundred(rig: &mut Rig) {
    let mut streams: Vec<_> = (0..200)
        .map(|_| {
            let mut stream = rig.daemon.connect();
            stream.write_all(b"count 1\n").unwrap();
            stream
        })
        .collect();
    for stream in &mut streams {
        let mut answer = String::new();
        stream.read_to_string(&mut answer).unwrap();
        assert_eq!(answer, "ok\n0\n");
    }
    rig.must_serve();
}

/// Watchers leave room for others: one is there already, and the ninth is sent away.
pub fn too_many_watchers(rig: &mut Rig) {
    let mut watchers = Vec::new();
    for _ in 0..7 {
        let mut stream = rig.daemon.connect();
        stream.write_all(b"watch\n").unwrap();
        // answered, so that it counts
        stream.read_exact(&mut [0; 3]).unwrap();
        watchers.push(stream);
    }
    assert_eq!(rig.daemon.ask("watch"), "error: 8 clients watch already, and no more may\n");
    drop(watchers);
    rig.must_serve();
}

/// Others can't open the socket, and are turned away even where somebody has opened it to them.
pub fn other_users(rig: &mut Rig) {
    let socket = rig.daemon.socket.clone();
    let mode = || fs::metadata(&socket).unwrap().permissions().mode() & 0o777;
    assert_eq!(mode(), 0o600);
    let ask = || {
        let mut command = control();
        command.args(["--socket", &socket, "status"]);
        output(&mut as_nobody(&command, &rig.place))
    };
    let (code, out, log) = ask();
    assert_eq!((code, out.as_str()), (Some(2), ""), "{log}");
    assert!(log.ends_with(": only the director's user and root may\n"), "{log}");
    fs::set_permissions(&socket, fs::Permissions::from_mode(0o666)).unwrap();
    let (code, out, log) = ask();
    assert_eq!((code, out.as_str()), (Some(1), ""), "{log}");
    assert_eq!(log, "nidhaagufctl: only user 0 and root may command this director\n");
    rig.daemon.await_log("<4>nidhaagufd: turned user 65534 away from the control socket\n");
    fs::set_permissions(&socket, fs::Permissions::from_mode(0o600)).unwrap();
    rig.must_serve();
}

/// `nidhaagufctl watch` prints the table at once and after a change, and not for the clock's sake.
pub fn a_watch_that_reads(rig: &mut Rig) {
    let mut command = control();
    command.args(["--socket", &rig.daemon.socket, "watch"]).stdout(Stdio::piped());
    let mut watch = Ended(command.spawn().unwrap());
    let lines = lines_of(watch.0.stdout.take().unwrap());
    let table = || -> Vec<String> {
        let full = |lines: &Vec<String>| lines.iter().filter(|line| !line.is_empty()).count() == 4;
        let mut table = Vec::new();
        while !full(&table) {
            table.push(lines.recv_timeout(PATIENCE).expect("no table comes"));
        }
        table
    };
    assert!(table()[2].ends_with("2       0            0     0         in service"));
    rig.set_weight(0, 9);
    let news = table();
    assert!(
        news[0].is_empty() && news[3].ends_with("9       0            0     0         in service"),
        "{news:?}"
    );
    rig.set_weight(0, 2);
    assert!(table()[3].ends_with("2       0            0     0         in service"));
    let mut times: Vec<Duration> = (1..=11)
        .map(|connections| {
            open_connection(rig);
            let opened = Instant::now();
            let news = table();
            assert!(news[1].contains(&format!(", {connections} of 64 slots used, ")), "{news:?}");
            opened.elapsed()
        })
        .collect();
    // it looks for watchers: neither a command nor the tick of a second made it do so. The median, since what else the
    // machine does may hold some of them up
    times.sort();
    assert!(times[5] < Duration::from_millis(250), "{times:?}");
    rig.end_all();
}

/// Opens a connection, and asks the daemon nothing.
fn open_connection(rig: &mut Rig) {
    let syn = tcp((0x0A00_0001, rig.new_port()), VIRTUAL, SYN).build();
    rig.link.send(&syn);
    assert_eq!(rig.link.receive(PATIENCE), rig.model.take(&syn));
}

/// The lines as they come.
pub fn lines_of(output: ChildStdout) -> Receiver<String> {
    let (sender, lines) = mpsc::channel();
    std::thread::spawn(move || {
        let read = BufReader::new(output).lines().map_while(Result::ok);
        read.take_while(|line| sender.send(line.clone()).is_ok()).count()
    });
    lines
}

/// A process that doesn't outlive the test.
pub struct Ended(pub Child);

impl Drop for Ended {
    fn drop(&mut self) {
        let _ = self.0.kill();
        let _ = self.0.wait();
    }
}

/// A client that connects and says nothing, and how long it was let do so.
pub struct SilentClient(JoinHandle<Duration>);

impl SilentClient {
    pub fn new(rig: &Rig) -> SilentClient {
        let mut stream = rig.daemon.connect();
        let since = Instant::now();
        SilentClient(std::thread::spawn(move || {
            assert_eq!(stream.read(&mut [0; 8]).unwrap(), 0);
            since.elapsed()
        }))
    }

    /// It is closed after five seconds, not before.
    pub fn must_be_closed(self, rig: &mut Rig) {
        let time = self.0.join().unwrap();
        assert!(time >= Duration::from_secs(5), "closed after {time:?}");
        rig.must_serve();
    }
}

/// A client that watches and never reads.
pub struct Watcher(UnixStream);

impl Watcher {
    pub fn new(rig: &Rig) -> Watcher {
        let mut stream = rig.daemon.connect();
        stream.write_all(b"watch\n").unwrap();
        Watcher(stream)
    }

    /// It is closed, if only there is always something new for it to read.
    pub fn must_be_closed(self, rig: &mut Rig) {
        let mut file = [Waited::new(&self.0, false, false)];
        let deadline = Instant::now() + PATIENCE;
        for weight in 10.. {
            assert!(Instant::now() < deadline, "it is still there");
            rig.set_weight(0, weight);
            rig.must_serve();
            system::wait(&mut file, Duration::from_millis(100)).unwrap();
            if file[0].is_ready() {
                break;
            }
        }
    }
}
