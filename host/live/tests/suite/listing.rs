//! Connections in every state: what status, count, connections and left tell of them, as text and as JSON, against the library's
//! counts.

use crate::commands::answer;
use crate::json::jq;
use crate::support::*;
use live::book::ConnectionState;
use live::control::commands::{Form, Text};
use live::control::connection::{Connection, MOST_COMMAND};
use live::control::left::Left;
use live::control::listing::{sort, Listing};
use live::instance::Instance;
use live::policy::Policy;
use live::system;
use nidhaaguf::Phase;
use reference::packets::{self, ACK, FIN, SYN};
use std::io::Read;
use std::os::unix::net::UnixStream;
use std::time::{Duration, Instant};

/// By number.
const SERVERS: [u32; 3] = [0x0A01_0005, 0x0A02_0005, 0x0A1E_0005];

fn at(instance: &mut Instance, second: u64) {
    instance.tick(Duration::from_secs(second));
}

fn client(instance: &mut Instance, port: u16, flags: u8) {
    let packet = packets::tcp((0x0A00_0001, port), VIRTUAL, flags).build();
    assert!(pass(instance, &packet).is_some(), "{port}");
}

fn server(instance: &mut Instance, number: usize, port: u16, flags: u8) {
    let packet = packets::tcp((SERVERS[number], 6432), (0x0A00_0001, port), flags).build();
    assert!(pass(instance, &packet).is_some(), "{port}");
}

/// Ports 7 to 1, on the servers 0, 1, 2, 0, 1, 2, 0: opening, open, client finished, server finished, finished, open, finished.
fn of_every_state() -> Instance {
    let mut instance = instance();
    for (second, port) in (10..).zip((1..=7).rev()) {
        at(&mut instance, second);
        client(&mut instance, port, SYN);
    }
    at(&mut instance, 20);
    for port in [6, 5, 4, 3, 2, 1] {
        client(&mut instance, port, ACK);
    }
    at(&mut instance, 30);
    client(&mut instance, 5, FIN | ACK);
    server(&mut instance, 0, 4, FIN | ACK);
    client(&mut instance, 3, FIN | ACK);
    server(&mut instance, 1, 3, FIN | ACK);
    at(&mut instance, 40);
    client(&mut instance, 1, FIN | ACK);
    server(&mut instance, 0, 1, FIN | ACK);
    at(&mut instance, 50);
    instance.set_weight(0, 0).unwrap();
    instance
}

#[test]
fn connections_are_listed_by_server_and_age() {
    let mut instance = of_every_state();
    let table = "\
client      server  address         age  idle  left  state
10.0.0.1:7  0       10.1.0.5:6432   40   40    860   opening
10.0.0.1:4  0       10.1.0.5:6432   37   20    880   server finished
10.0.0.1:1  0       10.1.0.5:6432   34   10    110   finished
10.0.0.1:6  1       10.2.0.5:6432   39   30    870   open
10.0.0.1:3  1       10.2.0.5:6432   36   20    100   finished
10.0.0.1:5  2       10.30.0.5:6432  38   20    880   client finished
10.0.0.1:2  2       10.30.0.5:6432  35   30    870   open
";
    assert_eq!(answer(&mut instance, "connections").unwrap(), table);
    let of_one = "\
client      server  address        age  idle  left  state
10.0.0.1:6  1       10.2.0.5:6432  39   30    870   open
10.0.0.1:3  1       10.2.0.5:6432  36   20    100   finished
";
    assert_eq!(answer(&mut instance, "connections 10.2.0.5:6432").unwrap(), of_one);
}

/// As those of a director of an earlier layout, which hands on no openings.
#[test]
fn unknown_openings_come_first() {
    let mut listed = of_every_state().connections();
    for seen in listed.iter_mut().filter(|seen| [1, 3].contains(&seen.connection.client.port())) {
        seen.opened = None;
    }
    sort(&mut listed);
    let ports: Vec<u16> = listed.iter().map(|seen| seen.connection.client.port()).collect();
    // of each server the last one that was opened
    assert_eq!(ports, [1, 7, 4, 3, 6, 5, 2]);
}

/// By its opening, where that may take so long alone.
#[test]
fn an_opening_connection_is_removed_sooner() {
    let mut instance = instance();
    instance.set_policy(Policy { opening_timeout: 30, ..Policy::NONE });
    at(&mut instance, 10);
    client(&mut instance, 1, SYN);
    client(&mut instance, 2, SYN);
    client(&mut instance, 2, ACK);
    at(&mut instance, 22);
    let left = |instance: &mut Instance| {
        jq(&answer(instance, "connections --json").unwrap(), "[.connections[] | [.state, .left]]")
    };
    assert_eq!(left(&mut instance), r#"[["opening",18],["open",888]]"#);
    at(&mut instance, 40);
    assert_eq!(left(&mut instance), r#"[["open",870]]"#);
}

/// The words of a table's lines but the titles, at most so many to a line: the last one keeps its spaces.
fn rows(table: &str, columns: usize) -> Vec<Vec<String>> {
    let words = |line: &str| {
        let mut words = line.split("  ").map(str::trim).filter(|word| !word.is_empty());
        words.by_ref().take(columns).map(str::to_string).collect()
    };
    table.lines().map(words).collect()
}

/// Of one server, by the library: all connections and the finished ones.
fn counted(instance: &Instance, server: usize) -> [u32; 2] {
    let of_server = instance.director().connections().filter(|found| found.server == server);
    let finished = of_server.filter(|found| found.phase == Phase::Finished).count();
    [instance.director().count(server).unwrap(), finished as u32]
}

#[test]
fn all_texts_tell_what_the_library_counts() {
    let mut instance = of_every_state();
    let status = answer(&mut instance, "status").unwrap();
    let first = "service 192.0.2.10:5432 tcp, least-connection, 7 of 4096 slots used, clock 50";
    assert_eq!(status.lines().next(), Some(first));
    let listed = rows(&answer(&mut instance, "connections").unwrap(), 7);
    for (server, row) in rows(&status, 7)[2..].iter().enumerate() {
        let [connections, finished] = counted(&instance, server);
        let counts = [connections, connections - finished, finished].map(|count| count.to_string());
        assert_eq!(row[3..6], counts, "{status}");
        let count = answer(&mut instance, &format!("count {server}")).unwrap();
        assert_eq!(count, format!("{connections}\n"));
        let number = server.to_string();
        let of_server: Vec<_> = listed[1..].iter().filter(|row| row[1] == number).collect();
        assert_eq!(of_server.len(), connections as usize);
        assert!(of_server.iter().all(|listed| listed[2] == row[1]), "{listed:?}");
        let are_finished = of_server.iter().filter(|row| row[6] == "finished").count();
        assert_eq!(are_finished, finished as usize);
        let one = rows(&answer(&mut instance, &format!("connections {}", row[1])).unwrap(), 7);
        assert_eq!(one[1..].iter().collect::<Vec<_>>(), of_server);
    }
    assert_eq!(status.lines().count(), 5);
}

#[test]
fn json_tells_the_same_to_another_program() {
    let mut instance = of_every_state();
    let status = answer(&mut instance, "status --json").unwrap();
    let about = "[.service, .protocol, .scheduler, .slots, .used, .clock]";
    let expected = r#"["192.0.2.10:5432","tcp","least-connection",4096,7,50]"#;
    assert_eq!(jq(&status, about), expected);
    assert_eq!(jq(&status, ".director"), instance.id());
    let listed = answer(&mut instance, "connections --json").unwrap();
    assert_eq!(jq(&listed, ".clock, (.connections | length)"), "50\n7");
    let states = "in service";
    for (server, at) in ["10.1.0.5:6432", "10.2.0.5:6432", "10.30.0.5:6432"].iter().enumerate() {
        let [all, finished] = counted(&instance, server);
        let open = all - finished;
        let (weight, state) = [(0, "draining"), (1, states), (20, states)][server];
        let expected =
            format!(r#"[{server},"{at}",{weight},false,{all},{open},{finished},"{state}"]"#);
        let fields = "[.server, .address, .weight, .down, .connections, .open, .finished, .state]";
        assert_eq!(jq(&status, &format!(".servers[{server}] | {fields}")), expected);
        let count = answer(&mut instance, &format!("count {server} --json")).unwrap();
        let fields = "[.server, .address, .connections, .open, .finished]";
        assert_eq!(jq(&count, fields), format!(r#"[{server},"{at}",{all},{open},{finished}]"#));
        let count = answer(&mut instance, &format!("connections {at} --json")).unwrap();
        let select = format!(r#"[.connections[] | select(.address == "{at}")]"#);
        assert_eq!(jq(&count, ".connections"), jq(&listed, &select));
        assert_eq!(jq(&count, ".connections | length"), all.to_string());
    }
}

/// Each line of the table and each object of the JSON is of the same connection, in the same order.
#[test]
fn json_and_table_list_the_same() {
    let mut instance = of_every_state();
    let listed = answer(&mut instance, "connections --json").unwrap();
    let fields = "[.client, .server, .address, .age // \"-\", .idle, .left, .state]";
    let words = format!(".connections[] | {fields} | map(tostring) | join(\"  \")");
    let table = rows(&answer(&mut instance, "connections").unwrap(), 7);
    let expected: Vec<String> = table[1..].iter().map(|row| row.join("  ")).collect();
    assert_eq!(jq(&listed, &words).lines().collect::<Vec<_>>(), expected);
}

#[test]
fn what_is_left_is_told_in_a_line() {
    let mut instance = of_every_state();
    let id = instance.id().to_string();
    for (server, rest) in [
        (0, "server 0 address 10.1.0.5:6432 service out connections 3 finished 1 last 110 idle 40"),
        (1, "server 1 address 10.2.0.5:6432 service in connections 2 finished 1 last 100 idle 30"),
        (2, "server 2 address 10.30.0.5:6432 service in connections 2 finished 0 last 0 idle 30"),
    ] {
        let line = answer(&mut instance, &format!("left {server}")).unwrap();
        assert_eq!(line, format!("director {id} {rest}\n"));
        let left: Left = line.parse().unwrap();
        assert_eq!(format!("{left}\n"), line);
        assert_eq!(format!("later 7 {line}").parse(), Ok(left));
    }
    let cut = "director a server 0 address 10.1.0.5:6432 service out connections 3".parse::<Left>();
    assert!(cut.unwrap_err().starts_with("expected `finished` in "));
}

/// An instance with all its slots used.
fn full() -> Instance {
    let mut instance = instance();
    (1..=4_096).for_each(|port| client(&mut instance, port, SYN));
    instance
}

/// Packets wait as long as the answer is made.
#[test]
fn the_longest_answer_is_made_soon() {
    let instance = full();
    let begin = Instant::now();
    let listing = Listing::of(&instance, None);
    let taken = begin.elapsed();
    let text = listing.text();
    let made = begin.elapsed();
    let json = format!("{}\n", listing.json());
    let all = begin.elapsed();
    println!(
        "{taken:?} taken, {made:?} with text of {} bytes, {:?} for JSON of {} bytes",
        text.len(),
        all - made,
        json.len()
    );
    assert_eq!(text.lines().count(), 4_097);
    assert_eq!(jq(&json, ".connections | length"), "4096");
    assert!(all < Duration::from_secs(1), "{all:?}");
}

/// The longest answer, for a client that takes 8 KiB each four seconds, by a socket as the daemon's.
#[test]
fn the_longest_answer_reaches_a_slow_reader() {
    let listing = Listing::of(&full(), None);
    let text = format!("ok\n{}", listing.text());
    let (mut reader, stream) = UnixStream::pair().unwrap();
    stream.set_nonblocking(true).unwrap();
    system::limit_send_buffer(&stream, 4_096).unwrap();
    let mut now = Instant::now();
    let mut connection = Some(Connection::new(stream, 0, now));
    connection.as_mut().unwrap().answer_by("ok\n", Text::ToBeMade(listing, Form::Text), now);
    let (mut read, mut bytes) = (Vec::new(), [0; 8_192]);
    loop {
        connection.iter_mut().for_each(|connection| connection.exchange(now));
        connection = connection.filter(|connection| !connection.is_over(now));
        now += Duration::from_secs(4);
        let length = reader.read(&mut bytes).unwrap();
        if length == 0 {
            break;
        }
        read.extend_from_slice(&bytes[..length]);
    }
    assert_eq!((read.len(), &read == text.as_bytes()), (text.len(), true));
}

/// All 64 servers by the longest names fit a command.
#[test]
fn the_longest_command_fits() {
    let longest = "255.255.255.255:65535=65535 ".repeat(64);
    assert!("weights ".len() + longest.len() <= MOST_COMMAND);
}

#[test]
fn states_have_names_of_their_own() {
    let names = ConnectionState::ALL.map(ConnectionState::name);
    let expected = ["opening", "open", "client finished", "server finished", "finished"];
    assert_eq!(names, expected);
}
