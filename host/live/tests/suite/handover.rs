//! One process hands its director to the next: both are threads here, at the two ends of a socket.

use crate::layouts::numbered;
use crate::support::*;
use live::handover::give::give;
use live::handover::layout;
use live::handover::request::Request;
use live::handover::take::{take, Taken};
use live::handover::{snapshot::Snapshot, PATIENCE};
use live::system::{self, descriptors, Waited};
use nidhaaguf::Protocol;
use std::io::{self, BufRead, BufReader, PipeWriter, Read, Write};
use std::net::Shutdown;
use std::os::fd::AsFd;
use std::os::unix::net::{UnixDatagram, UnixListener, UnixStream};
use std::sync::mpsc;
use std::thread::{self, JoinHandle};
use std::time::{Duration, Instant};

pub fn request() -> Request {
    Request::new(("192.0.2.10:5432".parse().unwrap(), Protocol::Tcp))
}

/// A socket at which a director is asked for, and a device.
pub struct Place {
    folder: Folder,
    pub listener: UnixListener,
    device: UnixDatagram,
    link: UnixDatagram,
}

impl Place {
    pub fn new(name: &str) -> Place {
        let folder = Folder::new(name);
        let listener = UnixListener::bind(folder.file("sock")).unwrap();
        let (device, link) = UnixDatagram::pair().unwrap();
        Place { folder, listener, device, link }
    }

    /// The next process, which asks in a thread of its own and then does something with what it gets.
    pub fn taker<T: Send + 'static>(
        &self,
        then: impl FnOnce(Result<Taken, String>) -> T + Send + 'static,
    ) -> JoinHandle<T> {
        let socket = self.folder.file("sock");
        thread::spawn(move || then(take(&socket, request())))
    }

    /// A stream to the one that asks, whose request is read.
    fn asked(&self) -> UnixStream {
        self.asked_for(request())
    }

    /// The same of another request.
    pub fn asked_for(&self, request: Request) -> UnixStream {
        let mut asks = [Waited::new(&self.listener, true, false)];
        system::wait(&mut asks, PATIENCE).unwrap();
        assert!(asks[0].is_ready(), "nobody asks");
        let (stream, _) = self.listener.accept().unwrap();
        assert_eq!(read_line(&stream), request.line());
        stream
    }

    fn give(&self, stream: UnixStream) -> Result<(), String> {
        give(stream, &small_snapshot(), self.device.as_fd(), self.listener.as_fd())
    }

    /// What the other end is sent, as by a process of another kind; the pipe's end tells whether it serves on.
    pub fn send(&self, stream: &UnixStream, line: &str, bytes: &[u8]) -> PipeWriter {
        let (word, serves_on) = io::pipe().unwrap();
        let files = [self.device.as_fd(), self.listener.as_fd(), word.as_fd()];
        assert_eq!(descriptors::send(stream, line.as_bytes(), files).unwrap(), line.len());
        (&*stream).write_all(bytes).unwrap();
        serves_on
    }
}

/// The next line that is said, and nothing after it.
pub fn read_line(stream: &UnixStream) -> String {
    let mut line = String::new();
    BufReader::with_capacity(1, stream).read_line(&mut line).unwrap();
    line
}

#[test]
fn all_is_handed_over() {
    let place = Place::new("all");
    let taker = place.taker(|taken| {
        let Taken { device, listener, snapshot, giver } = taken.unwrap();
        giver.serve().unwrap();
        (UnixDatagram::from(device), listener, snapshot)
    });
    assert_eq!(place.give(place.asked()), Ok(()));
    let (device, listener, snapshot) = taker.join().unwrap();
    assert_eq!(snapshot, small_snapshot());
    place.link.send(b"packet").unwrap();
    let mut bytes = [0; 10];
    assert_eq!((device.recv(&mut bytes).unwrap(), &bytes[..6]), (6, &b"packet"[..]));
    // the same socket, at which clients go on being let in
    let address = |listener: &UnixListener| listener.local_addr().unwrap();
    let path = |listener: &UnixListener| address(listener).as_pathname().unwrap().to_path_buf();
    assert_eq!(path(&listener), path(&place.listener));
    let _client = UnixStream::connect(place.folder.file("sock")).unwrap();
    listener.accept().unwrap();
}

/// The one that serves goes on, with the reason.
#[test]
fn a_refusal_is_told_at_both_ends() {
    let place = Place::new("refused");
    let taker = place.taker(|taken| taken.unwrap().giver.refuse("no room"));
    let given = place.give(place.asked());
    assert_eq!(given, Err("the other process refuses: no room".into()));
    assert_eq!(taker.join().unwrap(), "no room");
}

/// What the one that asked does in place of an answer, and why nothing is handed over then.
#[test]
fn one_that_goes_or_talks_nonsense_does_not_serve() {
    let read_all = |mut stream: &UnixStream| {
        let length = layout::bytes_of(&small_snapshot()).len();
        stream.read_exact(&mut vec![0; format!("state {length}\n").len() + length]).unwrap();
    };
    let deeds: [(&dyn Fn(&UnixStream), &str); 5] = [
        (&|stream| read_all(stream), "the other process has gone without a word"),
        (&|_| {}, "the other process has gone: "),
        (
            &|mut stream| stream.write_all(b"perhaps\n").unwrap(),
            "the other process says \"perhaps\"",
        ),
        (
            &|mut stream| stream.write_all(b"serving it\n").unwrap(),
            "the other process says \"serving it\"",
        ),
        (&|mut stream| stream.write_all(&[b'x'; 9_999]).unwrap(), "the other process says \"xxx"),
    ];
    for (deed, words) in deeds {
        let place = Place::new("nonsense");
        let (stream, other_end) = UnixStream::pair().unwrap();
        let giver = thread::scope(|scope| {
            let giver = scope.spawn(|| place.give(stream));
            deed(&other_end);
            if words.contains("gone") {
                drop(other_end);
            }
            giver.join().unwrap()
        });
        let complaint = giver.unwrap_err();
        assert!(complaint.starts_with(words), "{complaint}");
    }
}

/// How long a handing over takes that must come to nothing, and why it did.
fn time_of_failure(place: &Place, stream: UnixStream) -> (Duration, String) {
    let started = Instant::now();
    let complaint = place.give(stream).unwrap_err();
    (started.elapsed(), complaint)
}

/// Silence lasts 5 s and no longer, though a byte comes now and then; what is said later is refused.
#[test]
fn silence_is_waited_for_5_seconds() {
    let place = Place::new("silence");
    let (over, is_over) = mpsc::channel();
    let taker = place.taker(move |taken| {
        let giver = taken.unwrap().giver;
        is_over.recv().unwrap();
        giver.serve()
    });
    let (dripping, other_end) = UnixStream::pair().unwrap();
    let drip = thread::spawn(|| drip(dripping));
    thread::scope(|scope| {
        let silent = scope.spawn(|| time_of_failure(&place, place.asked()));
        let dripped = scope.spawn(|| time_of_failure(&place, other_end));
        for failed in [silent, dripped] {
            let (time, complaint) = failed.join().unwrap();
            assert_eq!(complaint, "the other process has not answered within 5 s");
            assert!(time >= PATIENCE && time < PATIENCE * 2, "{time:?}");
        }
    });
    over.send(()).unwrap();
    let late = taker.join().unwrap();
    assert_eq!(late, Err("the other process waited no longer, and serves on".into()));
    drip.join().unwrap();
}

/// Says a byte now and then, and never a whole line.
fn drip(mut stream: UnixStream) {
    while stream.write_all(b"s").is_ok() {
        thread::sleep(Duration::from_millis(100));
    }
}

/// One that doesn't read, at a socket without room for all.
#[test]
fn one_that_does_not_read_is_waited_for_5_seconds() {
    let place = Place::new("unread");
    let (stream, _other_end) = UnixStream::pair().unwrap();
    system::limit_send_buffer(&stream, 1).unwrap();
    let large = Snapshot { row: vec![0; 20_000], ..small_snapshot() };
    let started = Instant::now();
    let given = give(stream, &large, place.device.as_fd(), place.listener.as_fd());
    assert_eq!(given, Err("the other process has not answered within 5 s".into()));
    let time = started.elapsed();
    assert!(time >= PATIENCE && time < PATIENCE * 2, "{time:?}");
}

/// What the pipe says, where the other process takes no more words: a byte, that it serves on; its end, that it was killed.
#[test]
fn the_pipe_decides_where_nobody_listens() {
    for (is_alive, expected) in
        [(true, Err("the other process waited no longer, and serves on".into())), (false, Ok(()))]
    {
        let place = Place::new("pipe");
        let taker = place.taker(|taken| taken.unwrap());
        let stream = place.asked();
        let bytes = layout::bytes_of(&small_snapshot());
        let mut serves_on = place.send(&stream, &format!("state {}\n", bytes.len()), &bytes);
        let giver = taker.join().unwrap().giver;
        if is_alive {
            stream.shutdown(Shutdown::Read).unwrap();
            serves_on.write_all(b"!").unwrap();
        } else {
            drop(stream);
        }
        drop(serves_on);
        assert_eq!(giver.serve(), expected);
    }
}

/// Why nothing is taken, where the other end sends something else than a director.
#[test]
fn what_is_no_director_is_not_taken() {
    let bytes = layout::bytes_of(&small_snapshot());
    let state = format!("state {}\n", bytes.len());
    for (line, sent, words) in [
        ("error: no\n", &[][..], ": no"),
        ("ok\n", &[], ": it says \"ok\""),
        ("state many\n", &[], ": it says \"state many\""),
        ("state -1\n", &[], ": it says \"state -1\""),
        (&state, &bytes[..99], ": failed to fill whole buffer"),
        ("state 99\n", &bytes[..99], "it is cut or damaged: "),
        ("state 18446744073709551615\n", &bytes, ": failed to fill whole buffer"),
        (&state, &numbered(&bytes, 4), "its layout is 4, and this program reads 1, 2 and 3"),
    ] {
        let place = Place::new("no-director");
        let taker = place.taker(|taken| taken.map(|_| ()));
        let stream = place.asked();
        drop(place.send(&stream, line, sent));
        stream.shutdown(Shutdown::Write).unwrap();
        let complaint = taker.join().unwrap().unwrap_err();
        assert!(complaint.contains(words), "{line}: {complaint}");
        let mut answer = String::new();
        let _ = (&stream).read_to_string(&mut answer);
        // a director that came whole is refused, so that the other process serves on at once
        assert_eq!(answer.starts_with("refused: it"), complaint.starts_with("it"), "{answer}");
    }
}

/// One that sends the words without the files, one that goes at once, and nobody at all.
#[test]
fn files_and_a_director_are_missing() {
    let place = Place::new("missing");
    let bytes = layout::bytes_of(&small_snapshot());
    let taker = place.taker(|taken| taken.map(|_| ()));
    let mut stream = place.asked();
    stream.write_all(format!("state {}\n", bytes.len()).as_bytes()).unwrap();
    stream.write_all(&bytes).unwrap();
    let socket = place.folder.file("sock");
    let nothing = format!("the director at {} hands nothing over: ", socket.display());
    assert_eq!(taker.join().unwrap(), Err(format!("{nothing}0 files came with it")));
    let gone = format!("{nothing}it has gone, and another process may serve by now");
    let leave: [fn(&Place); 2] = [
        |place| drop(place.asked()),
        // the request is still to be read
        |place| {
            let (stream, _) = place.listener.accept().unwrap();
            (&stream).read_exact(&mut [0]).unwrap();
        },
    ];
    for leave in leave {
        let taker = place.taker(|taken| taken.map(|_| ()));
        leave(&place);
        assert_eq!(taker.join().unwrap(), Err(gone.clone()));
    }
    drop(place);
    let complaint = take(&socket, request()).unwrap_err();
    assert!(complaint.starts_with("no director serves at "), "{complaint}");
}
