//! Programs of the layouts 1 and 2, from which connections, weights and counts go on.

use crate::daemon::{wait_until, Daemon};
use crate::layouts::{layout_1_of, layout_2_of};
use crate::model::{CONFIG, SERVERS, VIRTUAL};
use crate::place::command;
use crate::rig::Rig;
use crate::stand_ins::{request, take_all};
use live::handover::layout::{self, LAYOUT};
use live::handover::request::Request;
use live::handover::snapshot::Snapshot;
use live::handover::take::Taken;
use live::system::descriptors;
use reference::packets::{tcp, ACK};
use std::fs;
use std::io::{self, BufRead, BufReader, Write};
use std::os::fd::AsFd;
use std::os::unix::net::{UnixListener, UnixStream};

/// The earlier layouts, and what such a program writes of a director.
pub const EARLIER: [(u32, fn(&Snapshot) -> Vec<u8>); 2] = [(1, layout_1_of), (2, layout_2_of)];

/// Connections, weights and counts of both ways that aren't those of a start.
fn use_it(rig: &mut Rig) {
    rig.set_weight(1, 3);
    let openings = rig.openings(5);
    rig.send(&openings);
    let client = (0x0A00_0001, rig.new_port());
    let unknown = [tcp(client, VIRTUAL, ACK), tcp(SERVERS[0], client, ACK)];
    rig.send(&unknown.map(|plan| plan.build()));
}

/// The state file of such a program is resumed; the next one is of the own layout.
pub fn state_file(rig: &mut Rig, of_layout: fn(&Snapshot) -> Vec<u8>) {
    use_it(rig);
    rig.daemon.must_end_by("TERM");
    let path = rig.place.file("sock.state");
    let saved = layout::read(&fs::read(&path).unwrap()).unwrap();
    fs::write(&path, of_layout(&saved)).unwrap();
    rig.start_again();
    rig.model.forget_book();
    let words = &rig.daemon.words;
    assert!(words.starts_with("resumed 5 connections at clock "), "{words}");
    rig.check();
    rig.daemon.must_end_by("TERM");
    assert_eq!(fs::read(&path).unwrap()[16..20], LAYOUT.to_le_bytes());
    rig.start_again();
    rig.check();
    rig.end_all();
    rig.must_serve();
}

/// A stand-in for such a program, which has all of a director, is asked twice and hands it over, with packets on their way
/// all the while.
pub fn take_over(rig: &mut Rig, layout: u32, of_layout: fn(&Snapshot) -> Vec<u8>) {
    use_it(rig);
    let taken = take_all(rig);
    let bytes = of_layout(&taken.snapshot);
    let Taken { device, listener, giver, .. } = taken;
    giver.serve().unwrap();
    assert_eq!(rig.daemon.outcome().0, Some(0));
    rig.model.forget_book();
    let expected = rig.send_ahead(&rig.model.packets_of_all(ACK));
    let next = command(&rig.place, CONFIG, "nid0", &["--take-over"]).spawn().unwrap();
    rig.daemon = Daemon::of_child(next, &rig.place);
    let mut refused = asked_for(&listener, request());
    let words = format!("error: layout 3 is asked for, and this program's is {layout}\n");
    refused.write_all(words.as_bytes()).unwrap();
    drop(refused);
    let mut stream = asked_for(&listener, Request { layout, ..request() });
    let (word, _serves_on) = io::pipe().unwrap();
    let files = [device.as_fd(), listener.as_fd(), word.as_fd()];
    let line = format!("state {}\n", bytes.len());
    assert_eq!(descriptors::send(&stream, line.as_bytes(), files).unwrap(), line.len());
    stream.write_all(&bytes).unwrap();
    assert_eq!(read_line(&stream), "serving\n");
    rig.daemon.await_ready();
    let words = &rig.daemon.words;
    assert!(words.starts_with("took over 5 connections at clock "), "{words}");
    rig.must_receive(expected);
    rig.check();
    rig.end_all();
    rig.must_serve();
}

/// The next one that asks, for that.
fn asked_for(listener: &UnixListener, request: Request) -> UnixStream {
    let mut stream = None;
    wait_until("a process asks", || {
        stream = listener.accept().ok();
        stream.is_some()
    });
    let (stream, _) = stream.unwrap();
    assert_eq!(read_line(&stream), request.line());
    stream
}

fn read_line(stream: &UnixStream) -> String {
    let mut line = String::new();
    BufReader::with_capacity(1, stream).read_line(&mut line).unwrap();
    line
}
