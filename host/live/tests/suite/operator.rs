//! What an operator does to a director: weights, servers that are down, connections that are ended.

use crate::support::*;
use live::book::Ending;
use live::instance::Instance;
use live::packet::{ACK, RST};
use live::policy::{Policy, Unknown};
use live::segments::Segment;
use nidhaaguf::Refusal;
use reference::packets::{self, transport_verifies};
use std::net::{Shutdown, SocketAddrV4};
use std::os::unix::net::UnixDatagram;

fn client(port: u16) -> SocketAddrV4 {
    SocketAddrV4::new([10, 0, 0, 1].into(), port)
}

fn at(words: &str) -> SocketAddrV4 {
    words.parse().unwrap()
}

/// With connections of the clients 1 to `clients`, at the servers 0, 1, 2, 0 and so on.
fn with_connections(clients: u16) -> Instance {
    let mut instance = instance();
    for port in 1..=clients {
        assert!(pass(&mut instance, &syn(port)).is_some());
    }
    instance
}

fn with_resets(mut instance: Instance) -> Instance {
    instance.set_policy(Policy { unknown: Unknown::Reset(200), opening_timeout: 0 });
    instance
}

fn ended(instance: &Instance, ending: Ending) -> Vec<u64> {
    instance.book().servers().iter().map(|counts| counts.ended_by(ending)).collect()
}

/// Its weights as the library has them.
fn in_force(instance: &Instance) -> Vec<u16> {
    (0..3).filter_map(|server| instance.director().weight(server)).collect()
}

#[test]
fn each_director_has_an_id() {
    let (one, other) = (instance(), instance());
    let is_digit = |byte: u8| byte.is_ascii_digit() || (b'a'..=b'f').contains(&byte);
    assert!(one.id().len() == 16 && one.id().bytes().all(is_digit), "{}", one.id());
    assert_ne!(one.id(), other.id());
}

/// The library's weight is 0 while a server is down; the operator's stays, and is in force again when the server is up.
#[test]
fn down_and_up_keep_the_weight() {
    let mut instance = instance();
    assert_eq!(instance.set_down(2, true), Ok(true));
    assert_eq!(instance.set_down(2, true), Ok(false));
    assert_eq!((instance.is_down(2), instance.weight(2)), (true, Some(20)));
    assert_eq!(in_force(&instance), [1, 1, 0]);
    assert_eq!(instance.set_down(2, false), Ok(true));
    assert_eq!((instance.is_down(2), in_force(&instance)), (false, vec![1, 1, 20]));
    assert_eq!(instance.set_down(3, true), Err(Refusal::NoServer));
    assert!(!instance.is_down(3) && instance.weight(3).is_none());
}

/// A drain while it is down stays when it is up, and a weight that is set then waits.
#[test]
fn neither_undoes_the_other() {
    let mut instance = instance();
    instance.set_down(0, true).unwrap();
    let change = instance.set_weight(0, 0).unwrap().unwrap();
    assert_eq!((change.old, change.new), (1, 0));
    assert_eq!(instance.set_weight(0, 0), Ok(None));
    instance.set_down(0, false).unwrap();
    assert_eq!((in_force(&instance), instance.weight(0)), (vec![0, 1, 20], Some(0)));
    instance.set_down(0, true).unwrap();
    instance.set_weight(0, 7).unwrap();
    assert_eq!((in_force(&instance), instance.weight(0)), (vec![0, 1, 20], Some(7)));
    instance.set_down(0, false).unwrap();
    assert_eq!(in_force(&instance), [7, 1, 20]);
    // none is picked that is down
    instance.set_down(0, true).unwrap();
    instance.set_down(1, true).unwrap();
    (1..=5).for_each(|port| assert!(pass(&mut instance, &syn(port)).is_some()));
    assert_eq!(instance.director().count(2), Ok(5));
}

#[test]
fn a_disconnected_client_is_gone_and_counted() {
    let mut instance = with_connections(4);
    let changes = instance.changes();
    assert_eq!(instance.disconnect(client(4)), Some(0));
    assert!(instance.changes() > changes);
    assert_eq!(instance.disconnect(client(4)), None);
    assert_eq!(instance.disconnect(client(99)), None);
    assert_eq!((instance.director().used(), instance.director().count(0)), (3, Ok(1)));
    assert_eq!(ended(&instance, Ending::Operator), [1, 0, 0]);
    // the client's reset, as the library has it sent on; no more where unknown packets get no answer
    let expected = Segment::reset(client(4), at("10.1.0.5:6432")).bytes().to_vec();
    assert_eq!(sent(&mut instance), [expected]);
    assert_eq!(sent(&mut instance).len(), 0);
    // no packet of a client or a server
    assert_eq!(
        instance.counters().to_string().split(';').next().unwrap(),
        "inbound 4 opened, 0 kept, 0 ended, 0 refused"
    );
}

/// Each end is asked for its numbers: what it says then is answered with a reset that fits.
#[test]
fn both_ends_learn_of_a_disconnect() {
    let mut instance = with_resets(with_connections(2));
    assert_eq!(instance.disconnect(client(2)), Some(1));
    let server = at("10.2.0.5:6432");
    let service = instance.settings().service;
    let expected = [
        Segment::reset(client(2), server),
        Segment::bare_acknowledgment(service, client(2)),
        Segment::bare_acknowledgment(client(2), server),
    ];
    assert_eq!(sent(&mut instance), expected.map(|segment| segment.bytes().to_vec()));
    let ends = [((0x0A00_0001, 2), VIRTUAL), ((0x0A02_0005, 6432), (0x0A00_0001, 2))];
    for (from, to) in ends {
        let answered = pass(&mut instance, &packets::tcp(from, to, ACK).build()).unwrap();
        assert!(transport_verifies(&answered));
        let reset = Segment::answer_to(&packets::tcp(from, to, ACK).build()).unwrap();
        assert_eq!((reset.flags, reset.sequence), (RST, 2));
        assert_eq!(answered, reset.bytes());
    }
    assert_eq!(instance.counters().resets_sent, 2);
}

#[test]
fn a_flushed_server_has_no_connections() {
    let mut instance = with_connections(1_000);
    assert_eq!(instance.flush(1), Ok(333));
    assert_eq!(
        [0, 1, 2].map(|server| instance.director().count(server)),
        [Ok(334), Ok(0), Ok(333)]
    );
    assert_eq!(ended(&instance, Ending::Operator), [0, 333, 0]);
    let segments = sent(&mut instance);
    assert_eq!(segments.len(), 333);
    assert!(segments.iter().all(|bytes| bytes[16..20] == [10, 2, 0, 5] && bytes[33] == RST));
    assert_eq!((instance.flush(1), instance.flush(3)), (Ok(0), Err(Refusal::NoServer)));
}

/// All of the largest table, in the order of the table; of each three segments.
#[test]
fn a_full_table_is_flushed() {
    let mut instance = with_resets(instance());
    instance.set_weight(0, 0).unwrap();
    instance.set_weight(1, 0).unwrap();
    (1..=4_096).for_each(|port| assert!(pass(&mut instance, &syn(port)).is_some()));
    assert_eq!(instance.flush(2), Ok(4_096));
    assert_eq!((instance.director().used(), instance.connections().len()), (0, 0));
    assert_eq!(ended(&instance, Ending::Operator), [0, 0, 4_096]);
}

/// UDP has no packet that ends a connection.
#[test]
fn connections_of_udp_can_not_be_ended() {
    let mut instance = instance_of(&CONFIG.replace("tcp", "udp"));
    let packet = packets::udp((0x0A00_0001, 1), VIRTUAL).build();
    assert!(pass(&mut instance, &packet).is_some());
    assert_eq!((instance.disconnect(client(1)), instance.flush(0)), (None, Ok(0)));
    assert_eq!((instance.director().used(), sent(&mut instance).len()), (1, 0));
}

/// What the device doesn't take of them is counted as of any packet.
#[test]
fn segments_that_are_not_taken_are_counted() {
    let mut instance = with_resets(with_connections(3));
    instance.disconnect(client(1));
    let (link, device) = UnixDatagram::pair().unwrap();
    link.shutdown(Shutdown::Read).unwrap();
    instance.send(&device);
    assert_eq!(instance.counters().write_failures, 3);
    instance.send(&device);
    assert_eq!(instance.counters().write_failures, 3);
}
