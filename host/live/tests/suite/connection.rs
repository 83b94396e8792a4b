//! One client of the control socket, at the other end of a pair of sockets.

use crate::support::await_end;
use live::control::connection::{Connection, MOST_COMMAND, PATIENCE};
use std::io::{Read, Write};
use std::net::Shutdown;
use std::os::unix::net::UnixStream;
use std::time::{Duration, Instant};

fn pair(now: Instant) -> (UnixStream, Connection) {
    let (client, server) = UnixStream::pair().unwrap();
    server.set_nonblocking(true).unwrap();
    (client, Connection::new(server, 0, now))
}

#[test]
fn a_command_is_a_line() {
    let (mut client, mut connection) = pair(Instant::now());
    connection.exchange(Instant::now());
    assert!(!connection.has_command());
    client.write_all(b"sta").unwrap();
    connection.exchange(Instant::now());
    assert!(!connection.has_command());
    client.write_all(b"tus\nmore").unwrap();
    connection.exchange(Instant::now());
    assert!(connection.has_command());
    assert_eq!(connection.command(), Ok("status".to_string()));
}

#[test]
fn a_command_may_end_with_what_is_sent() {
    let (mut client, mut connection) = pair(Instant::now());
    client.write_all(b"count 1").unwrap();
    client.shutdown(Shutdown::Write).unwrap();
    connection.exchange(Instant::now());
    connection.exchange(Instant::now());
    assert!(connection.has_command());
    assert_eq!(connection.command(), Ok("count 1".to_string()));
}

#[test]
fn a_command_has_its_length() {
    for (length, good) in [(MOST_COMMAND, true), (MOST_COMMAND + 1, false), (9_999, false)] {
        let (mut client, mut connection) = pair(Instant::now());
        client.write_all(&vec![b'x'; length]).unwrap();
        client.write_all(b"\n").unwrap();
        connection.exchange(Instant::now());
        assert!(connection.has_command());
        assert_eq!(connection.command().is_ok(), good, "{length}");
    }
}

#[test]
fn an_answer_ends_the_connection() {
    let now = Instant::now();
    let (mut client, mut connection) = pair(now);
    client.write_all(b"status\n").unwrap();
    connection.exchange(now);
    connection.answer("ok\ntext\n", now);
    assert!(connection.is_over(now) && !connection.has_command());
    drop(connection);
    let mut answer = String::new();
    client.read_to_string(&mut answer).unwrap();
    assert_eq!(answer, "ok\ntext\n");
}

#[test]
fn silence_ends_the_connection() {
    let now = Instant::now();
    let (mut client, mut connection) = pair(now);
    assert!(!connection.is_over(now + PATIENCE - Duration::from_nanos(1)));
    // a byte now and then is no way to stay
    client.write_all(b"s").unwrap();
    connection.exchange(now);
    assert!(connection.is_over(now + PATIENCE));
    drop(client);
    let (client, mut connection) = pair(now);
    drop(client);
    await_end(connection.waited());
    connection.exchange(now);
    assert!(connection.is_over(now));
}

/// As while a take-over fails, for which the director is needed.
#[test]
fn a_command_may_be_answered_late() {
    let now = Instant::now();
    let (mut client, mut connection) = pair(now);
    client.write_all(b"status\n").unwrap();
    connection.exchange(now);
    assert!(connection.has_command() && !connection.is_over(now + 2 * PATIENCE));
    let late = now + 2 * PATIENCE;
    connection.answer(&"x".repeat(1 << 20), late);
    assert!(!connection.is_over(late) && connection.is_over(late + PATIENCE));
}

#[test]
fn an_answer_must_be_read() {
    let now = Instant::now();
    let (_client, mut connection) = pair(now);
    let later = now + Duration::from_secs(3);
    connection.answer(&"x".repeat(1 << 20), later);
    connection.exchange(later);
    assert!(!connection.is_over(now + PATIENCE));
    assert!(connection.is_over(later + PATIENCE));
}

#[test]
fn a_watch_may_be_quiet_for_long_if_it_has_read_all() {
    let now = Instant::now();
    let (mut client, mut connection) = pair(now);
    connection.watch("table\n", 7, "shown", now);
    assert!(connection.is_watching() && !connection.is_over(now + 1_000 * PATIENCE));
    assert!(!connection.is_behind(7) && connection.is_behind(8));
    assert!(connection.has_shown("shown") && !connection.has_shown("other"));
    let mut table = [0; 6];
    client.read_exact(&mut table).unwrap();
    assert_eq!(&table, b"table\n");
    connection.watch(&"x".repeat(1 << 20), 8, "more", now);
    assert!(!connection.is_behind(9), "it gets no more before it has read that");
    assert!(connection.is_over(now + PATIENCE));
}

#[test]
fn a_watcher_that_goes_or_speaks_is_over() {
    let now = Instant::now();
    let (client, mut connection) = pair(now);
    connection.watch("", 0, "", now);
    connection.exchange(now);
    assert!(!connection.is_over(now));
    drop(client);
    await_end(connection.waited());
    connection.exchange(now);
    assert!(connection.is_over(now));
    let (mut client, mut connection) = pair(now);
    connection.watch("", 0, "", now);
    client.write_all(b"status\n").unwrap();
    connection.exchange(now);
    assert!(connection.is_over(now));
}
