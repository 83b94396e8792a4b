//! The operator's command as it waits, before a stand-in of the director that says what it is told to: what no director says when it
//! is asked to, as an answer that is cut, or another director's.

use crate::support::Folder;
use programs::{ENV, SCRIPT};
use std::io::{BufRead, BufReader, Read, Write};
use std::os::unix::net::{UnixListener, UnixStream};
use std::path::Path;
use std::process::{Command, Output, Stdio};
use std::thread::JoinHandle;
use std::time::{Duration, Instant};

/// What the stand-in does on a command.
#[derive(Clone)]
enum Reply {
    Says(String),
    /// It is silent for so long, and closes.
    Silent(Duration),
}

/// A good answer of a director: service, connections, finished, last and idle.
fn left(director: &str, service: &str, [connections, finished, last, idle]: [u32; 4]) -> Reply {
    let server = format!("director {director} server 0 address 10.1.0.5:6432 service {service}");
    let counts = format!("connections {connections} finished {finished} last {last} idle {idle}");
    Reply::Says(format!("ok\n{server} {counts}\n"))
}

/// Gives these replies, one a command, until they are at an end or it is told to stop, by nothing; it is gone then. Tells the
/// commands.
fn stand_in(socket: &Path, replies: &[Reply]) -> JoinHandle<Vec<String>> {
    let listener = UnixListener::bind(socket).unwrap();
    let replies = replies.to_vec();
    std::thread::spawn(move || {
        let reply = |reply: Reply| {
            let (stream, _) = listener.accept().unwrap();
            let mut line = String::new();
            BufReader::new(&stream).read_line(&mut line).unwrap();
            match reply {
                // who has waited long enough may have gone
                Reply::Says(text) => drop((&stream).write_all(text.as_bytes())),
                Reply::Silent(time) => std::thread::sleep(time),
            }
            (!line.is_empty()).then(|| line.trim_end().to_string())
        };
        replies.into_iter().map_while(reply).collect()
    })
}

/// What the stand-in was told.
fn stopped(director: JoinHandle<Vec<String>>, socket: &Path) -> Vec<String> {
    // where it is gone already, there is nobody to connect to
    drop(UnixStream::connect(socket));
    director.join().unwrap()
}

/// What the operator's command comes to before such a director: its exit code, output and complaint, and what it said.
fn run(name: &str, words: &[&str], replies: &[Reply]) -> (i32, String, String, Vec<String>) {
    let folder = Folder::new(name);
    let socket = folder.file("sock");
    let director = stand_in(&socket, replies);
    let mut command = Command::new(env!("CARGO_BIN_EXE_nidhaagufctl"));
    command.args(["--socket", socket.to_str().unwrap()]).args(words);
    let Output { status, stdout, stderr } = command.output().unwrap();
    let text = |bytes| String::from_utf8(bytes).unwrap();
    let complaint = text(stderr).replace(socket.to_str().unwrap(), "SOCKET");
    (status.code().unwrap(), text(stdout), complaint, stopped(director, &socket))
}

const THREE: &str = "server 0 (10.1.0.5:6432): 3 connections left: 1 open, longest idle 40 s; \
                     2 finished, the last of them goes in 119 s\n";
const NONE: &str = "server 0 (10.1.0.5:6432): no connections left\n";

#[test]
fn each_change_is_a_line_and_zero_is_the_end() {
    let replies = [
        left("a", "out", [3, 2, 119, 40]),
        left("a", "out", [3, 2, 118, 41]),
        left("a", "out", [1, 0, 0, 1]),
        left("a", "out", [1, 1, 120, 0]),
        left("a", "out", [0, 0, 0, 0]),
    ];
    let (code, out, complaint, said) = run("lines", &["wait", "10.1.0.5:6432"], &replies);
    let one = "server 0 (10.1.0.5:6432): 1 connections left:";
    let lines = format!(
        "{THREE}{one} 1 open, longest idle 1 s\n{one} 1 finished, the last of them goes in 120 s\n{NONE}"
    );
    assert_eq!((code, out, complaint), (0, lines, String::new()));
    assert_eq!(said, ["left 10.1.0.5:6432"; 5]);
}

#[test]
fn another_director_ends_the_wait_even_at_zero() {
    let replies = [left("a", "out", [3, 2, 119, 40]), left("b", "out", [0, 0, 0, 0])];
    let (code, out, complaint, _) = run("another", &["wait", "0"], &replies);
    let words = "nidhaagufctl: another director answers at SOCKET now, b instead of a: \
                 it doesn't know the connections that were waited for\n";
    assert_eq!((code, out.as_str(), complaint.as_str()), (2, THREE, words));
}

#[test]
fn a_director_that_goes_ends_the_wait() {
    let replies = [left("a", "out", [3, 2, 119, 40])];
    let (code, out, complaint, _) = run("gone", &["wait", "0"], &replies);
    let words = "nidhaagufctl: can't talk to a director at SOCKET: nobody listens on the socket\n";
    assert_eq!((code, out.as_str(), complaint.as_str()), (2, THREE, words));
}

/// As while another process takes over.
#[test]
fn answers_that_are_missing_or_cut_are_asked_for_again() {
    let cut = |reply: Reply| match reply {
        Reply::Says(text) => Reply::Says(text[..text.len() - 1].to_string()),
        silent => silent,
    };
    let zero = left("a", "out", [0, 0, 0, 0]);
    let missing = Reply::Silent(Duration::ZERO);
    let replies = [missing.clone(), cut(zero.clone()), Reply::Says("ok\n".into()), missing, zero];
    let (code, out, complaint, said) = run("missing", &["wait", "0"], &replies);
    assert_eq!((code, out.as_str(), complaint.as_str()), (0, NONE, ""));
    assert_eq!(said, ["left 0"; 5]);
    let (code, _, complaint, said) =
        run("all-missing", &["wait", "0"], &vec![Reply::Silent(Duration::ZERO); 5]);
    assert_eq!((code, said.len()), (2, 5));
    assert_eq!(complaint, "nidhaagufctl: the director at SOCKET is gone\n");
}

#[test]
fn the_time_may_be_up() {
    let three = left("a", "out", [3, 2, 119, 40]);
    let begin = Instant::now();
    let (code, out, complaint, _) = run("time", &["wait", "0", "1"], &vec![three.clone(); 8]);
    assert!(begin.elapsed() >= Duration::from_secs(1));
    let words = format!("nidhaagufctl: the time is up after 1 s: {THREE}");
    assert_eq!((code, out.as_str(), complaint), (3, THREE, words));
    let (code, _, _, said) = run("no-time", &["wait", "0", "0"], &[three]);
    assert_eq!((code, said.len()), (3, 1));
    // at zero there is no time to wait
    let zero = [left("a", "out", [0, 0, 0, 0])];
    assert_eq!(run("zero", &["wait", "0", "0"], &zero).0, 0);
}

#[test]
fn a_director_that_hangs_takes_no_more_than_the_time() {
    let replies = [Reply::Silent(Duration::from_secs(4))];
    let (code, _, complaint, _) = run("hangs", &["wait", "0", "1"], &replies);
    let words = "nidhaagufctl: the time is up after 1 s: can't talk to a director at SOCKET: \
                 no answer within 1 s\n";
    assert_eq!((code, complaint.as_str()), (3, words));
}

/// It would read zero, and connections might come a moment later.
#[test]
fn a_server_in_service_is_not_waited_for() {
    let words = "nidhaagufctl: server 0 (10.1.0.5:6432) is in service: a count of zero would not last, so drain it first\n";
    let zero = left("a", "in", [0, 0, 0, 0]);
    let (code, out, complaint, _) = run("in-service", &["wait", "0"], &[zero.clone()]);
    assert_eq!((code, out.as_str(), complaint.as_str()), (1, "", words));
    // put back meanwhile
    let replies = [left("a", "out", [3, 2, 119, 40]), zero];
    let (code, out, complaint, _) = run("put-back", &["wait", "0"], &replies);
    assert_eq!((code, out.as_str(), complaint.as_str()), (1, THREE, words));
}

#[test]
fn a_refusal_ends_the_wait() {
    let replies = [Reply::Says("error: there is no such server\n".into())];
    for words in [&["wait", "7"][..], &["drain", "7", "--wait"]] {
        let (code, out, complaint, _) = run("refused", words, &replies);
        assert_eq!((code, out.as_str()), (1, ""));
        assert_eq!(complaint, "nidhaagufctl: there is no such server\n");
    }
}

/// The director is known before it drains: another one that is drained already is not waited for.
#[test]
fn a_drain_that_waits() {
    let drained = Reply::Says("ok\ndrained\n".into());
    let before = left("a", "in", [1, 0, 0, 9]);
    let replies = [before.clone(), drained.clone(), left("a", "out", [0, 0, 0, 0])];
    let (code, out, complaint, said) = run("drain", &["drain", "0", "--wait", "9"], &replies);
    assert_eq!((code, out, complaint), (0, format!("drained\n{NONE}"), String::new()));
    assert_eq!(said, ["left 0", "drain 0", "left 0"]);
    let replies = [before, drained, left("b", "out", [0, 0, 0, 0])];
    let (code, out, _, _) = run("drain-another", &["drain", "0", "--wait"], &replies);
    assert_eq!((code, out.as_str()), (2, "drained\n"));
}

/// Whoever reads may go: the exit code is the answer, and it may not be 0 before it is zero.
#[test]
fn a_reader_that_goes_does_not_end_the_wait() {
    let folder = Folder::new("unread");
    let replies = [
        left("a", "out", [3, 2, 119, 40]),
        left("a", "out", [1, 0, 0, 1]),
        left("b", "out", [0; 4]),
    ];
    let director = stand_in(&folder.file("sock"), &replies);
    let mut command = Command::new(env!("CARGO_BIN_EXE_nidhaagufctl"));
    command.args(["--socket", folder.file("sock").to_str().unwrap(), "wait", "0"]);
    let mut child = command.stdout(Stdio::piped()).stderr(Stdio::null()).spawn().unwrap();
    drop(child.stdout.take());
    assert_eq!(child.wait().unwrap().code(), Some(2));
    assert_eq!(director.join().unwrap().len(), 3);
}

/// A command for a terminal, which `script` makes.
fn on_terminal(socket: &Path) -> Command {
    let program = env!("CARGO_BIN_EXE_nidhaagufctl");
    // whoever starts the tests in the background lets them ignore Ctrl-C
    let own_signals = format!("{} --default-signal=INT", ENV.name());
    let words = format!("{own_signals} {program} --socket {} wait 0", socket.display());
    let mut command = SCRIPT.command();
    command.args(["-qec", &words, "/dev/null"]).env("TERM", "xterm");
    command
}

#[test]
fn a_terminal_has_one_line_that_is_written_anew() {
    let folder = Folder::new("terminal");
    let replies = [[3, 2, 119, 40], [3, 2, 118, 41], [0; 4]].map(|counts| left("a", "out", counts));
    let director = stand_in(&folder.file("sock"), &replies);
    let output = on_terminal(&folder.file("sock")).output().unwrap();
    assert_eq!((output.status.code(), director.join().unwrap().len()), (Some(0), 3));
    let later = THREE.replace("119", "118").replace("40 s", "41 s");
    let line = |text: &str| format!("\x1b[?7l{}\x1b[?7h\r\n", text.trim_end());
    let back = "\x1b[A\r\x1b[2K";
    let expected = format!("{}{back}{}{back}{}", line(THREE), line(&later), line(NONE));
    assert_eq!(String::from_utf8(output.stdout).unwrap(), expected);
}

/// The terminal's cursor is at the beginning of an empty line when Ctrl-C comes.
#[test]
fn an_interrupt_leaves_the_terminal_clean() {
    let folder = Folder::new("interrupt");
    let socket = folder.file("sock");
    // more than it can ask for: the director is there when Ctrl-C comes
    let director = stand_in(&socket, &vec![left("a", "out", [3, 2, 119, 40]); 10_000]);
    let mut command = on_terminal(&socket);
    let mut child = command.stdin(Stdio::piped()).stdout(Stdio::piped()).spawn().unwrap();
    let mut output = BufReader::new(child.stdout.take().unwrap());
    let mut out = String::new();
    output.read_line(&mut out).unwrap();
    child.stdin.take().unwrap().write_all(b"\x03").unwrap();
    output.read_to_string(&mut out).unwrap();
    let code = child.wait().unwrap().code();
    assert!(matches!(code, Some(130 | 2)), "{code:?}");
    assert!(out.ends_with("\x1b[?7h\r\n^C"), "{out:?}");
    assert!(!stopped(director, &socket).is_empty());
}
