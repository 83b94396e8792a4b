//! Stand-ins for the next process, which do what a good one doesn't.

use crate::daemon::{output, wait_until, Daemon};
use crate::model::CONFIG;
use crate::place::{command, control};
use crate::rig::Rig;
use live::handover::request::Request;
use live::handover::take::{take, Taken};
use nidhaaguf::Protocol;
use reference::packets::ACK;
use std::fs;
use std::io::{BufRead, BufReader, Read, Write};
use std::os::unix::net::UnixStream;
use std::path::Path;
use std::thread;

pub fn request() -> Request {
    Request::new(("192.0.2.10:5432".parse().unwrap(), Protocol::Tcp))
}

/// One that has connected and asked.
fn ask(rig: &Rig) -> UnixStream {
    let mut stream = rig.daemon.connect();
    stream.write_all(request().line().as_bytes()).unwrap();
    stream
}

/// One that has all, and has said nothing yet.
pub fn take_all(rig: &Rig) -> Taken {
    take(Path::new(&rig.daemon.socket), request()).unwrap()
}

/// Waits until so many clients are connected at the daemon's socket, let in or not.
pub fn await_clients(rig: &Rig, clients: usize) {
    // the listening socket has the name too
    let sockets = || fs::read_to_string("/proc/thread-self/net/unix").unwrap();
    let name = format!(" {}\n", rig.daemon.socket);
    wait_until("clients connect", || sockets().matches(&name).count() > clients);
}

/// One that has gone after it asked, after the first byte, after half of the state, and after all of it.
pub fn gone_at_each_step(rig: &mut Rig) {
    let mut line = String::new();
    BufReader::new(ask(rig)).read_line(&mut line).unwrap();
    let state: usize = line.trim_end().strip_prefix("state ").unwrap().parse().unwrap();
    let all = line.len() + state;
    for (time, length) in
        [0, 1, line.len(), line.len() + state / 2, all - 1, all].iter().enumerate()
    {
        let mut stream = ask(rig);
        stream.read_exact(&mut vec![0; *length]).unwrap();
        drop(stream);
        let own = std::process::id();
        let words =
            format!("<3>nidhaagufd: not handed over to process {own}: the other process has gone");
        rig.daemon.await_log_times(&words, time + 2);
        rig.must_serve();
    }
}

/// One that says something else than it should.
pub fn nonsense(rig: &mut Rig) {
    for (said, words) in [
        (&b"perhaps\n"[..], "the other process says \"perhaps\""),
        (b"serving or not\n", "the other process says \"serving or not\""),
        (b"\xFF\x00\n", "the other process says \"\u{fffd}\\0\""),
        (b"refused: no reason\n", "the other process refuses: no reason"),
        (b"refused: \n", "the other process refuses: "),
        (&[b'x'; 5_000], "the other process says \"xxx"),
    ] {
        let mut stream = ask(rig);
        // what is said before that belongs to the request
        stream.read_exact(&mut [0]).unwrap();
        stream.write_all(said).unwrap();
        // the log is one line an event, whatever is in it
        rig.daemon.await_log(&words.replace('\0', "\\0"));
        rig.must_serve();
    }
}

/// One that asks and neither reads nor goes: the next in line gets the director after 5 s, as it was.
pub fn silent(rig: &mut Rig) {
    let openings = rig.openings(5);
    rig.send(&openings);
    let stream = ask(rig);
    await_clients(rig, 1);
    let log = rig.take_over();
    assert!(
        log.contains(": the other process has not answered within 5 s; serving on after "),
        "{log}"
    );
    drop(stream);
    rig.end_all();
    rig.must_serve();
}

/// One that has all and hangs: the old one serves on after 5 s, with what came meanwhile; an operator waits no longer. What is
/// said later is refused.
pub fn late(rig: &mut Rig) {
    let openings = rig.openings(5);
    rig.send(&openings);
    let (taken, mut client) = take_before_a_client(rig);
    let expected = rig.send_ahead(&rig.model.packets_of_all(ACK));
    let (code, out, log) = output(control().args(["--socket", &rig.daemon.socket, "status"]));
    assert_eq!(code, Some(0), "{log}");
    assert!(out.contains(", 5 of 64 slots used, "), "{out}");
    rig.daemon.await_log(": the other process has not answered within 5 s; serving on after ");
    let mut answer = String::new();
    client.read_to_string(&mut answer).unwrap();
    assert_eq!(answer, "ok\n3\n");
    rig.must_receive(expected);
    rig.check();
    let late = taken.giver.serve();
    assert_eq!(late, Err("the other process waited no longer, and serves on".into()));
    rig.end_all();
    rig.must_serve();
}

/// One that has all, and a client that has asked for a count after it and is let in with it.
fn take_before_a_client(rig: &Rig) -> (Taken, UnixStream) {
    rig.daemon.stop();
    let socket = rig.daemon.socket.clone();
    let taker = thread::spawn(move || take(Path::new(&socket), request()).unwrap());
    await_clients(rig, 1);
    let mut client = rig.daemon.connect();
    client.write_all(b"count 0\n").unwrap();
    rig.daemon.signal("CONT");
    (taker.join().unwrap(), client)
}

/// Two processes that ask before either is answered: one serves in the end, the other one and the old one have ended.
pub fn two_at_once(rig: &mut Rig) {
    let openings = rig.openings(5);
    rig.send(&openings);
    rig.daemon.stop();
    // both first: the second one's configuration is written before the first one reads it
    let commands = [(), ()].map(|()| command(&rig.place, CONFIG, "nid0", &["--take-over"]));
    let [mut one, mut other] =
        commands.map(|mut command| Daemon::of_child(command.spawn().unwrap(), &rig.place));
    await_clients(rig, 2);
    let expected = rig.send_ahead(&rig.model.packets_of_all(ACK));
    rig.daemon.signal("CONT");
    wait_until("one of them ends", || one.has_ended() || other.has_ended());
    let (next, ended) = if one.has_ended() { (other, one) } else { (one, other) };
    let (code, out, log) = ended.wait();
    assert_eq!((code, out.as_str()), (Some(1), ""), "{log}");
    assert!(log.ends_with(": it has gone, and another process may serve by now\n"), "{log}");
    let (code, _, log) = std::mem::replace(&mut rig.daemon, next).wait();
    assert_eq!(code, Some(0), "{log}");
    rig.must_receive(expected);
    rig.daemon.await_ready();
    assert!(rig.daemon.words.starts_with("took over 5 connections at clock "));
    rig.check();
    rig.end_all();
    rig.must_serve();
}
