//! Real TCP at both ends of the director: who learns that a connection is no more, and how soon.

use crate::daemon::{output, wait_until, Daemon, PATIENCE};
use crate::link;
use crate::model::CONFIG;
use crate::place::{control, Place};
use std::fs;
use std::io::{ErrorKind, Read, Write};
use std::net::{TcpListener, TcpStream};
use std::sync::mpsc::{self, Sender};
use std::thread;

type Order = Box<dyn FnOnce() + Send>;

/// A host with a network of its own: a thread that does there what it is told.
struct Host(Sender<Order>);

impl Host {
    /// At that address of a link to the director, which has the last address there.
    fn new(name: &'static str, network: &'static str, own: &'static str) -> Host {
        let (orders, taken) = mpsc::channel::<Order>();
        thread::spawn(move || taken.into_iter().for_each(|order| order()));
        let host = Host(orders);
        let thread = host.run(|| {
            link::enter_own_network().unwrap();
            fs::read_link("/proc/thread-self").unwrap().file_name().unwrap().to_owned()
        });
        let thread = thread.to_str().unwrap().to_string();
        link::ip(&format!("link add {name} type veth peer name uplink netns {thread}"));
        link::ip(&format!("addr add {network}.254/24 dev {name}"));
        link::ip(&format!("link set {name} up"));
        host.run(move || {
            link::ip(&format!("addr add {network}.{own}/24 dev uplink"));
            link::ip("link set uplink up");
            link::ip(&format!("route add default via {network}.254"));
        });
        host
    }

    fn run<T: Send + 'static>(&self, work: impl FnOnce() -> T + Send + 'static) -> T {
        let (done, result) = mpsc::channel();
        self.0.send(Box::new(move || drop(done.send(work())))).unwrap();
        result.recv().expect("the host has failed")
    }
}

/// The director's routes, as docs/OPERATIONS.md has them.
fn route() {
    fs::write("/proc/sys/net/ipv4/ip_forward", "1").unwrap();
    for name in ["all", "default", "nid0", "servers"] {
        fs::write(format!("/proc/sys/net/ipv4/conf/{name}/rp_filter"), "0").unwrap();
    }
    link::ip("route add 192.0.2.10 dev nid0");
    link::ip("route add default dev nid0 table 100");
    link::ip("rule add iif servers from 10.1.0.5 lookup 100");
}

/// A client and a server that have talked with each other, through the director.
fn connected(client: &Host, listener: &TcpListener) -> [TcpStream; 2] {
    let mut near = client.run(|| TcpStream::connect("192.0.2.10:5432").unwrap());
    let (mut far, _) = listener.accept().unwrap();
    for stream in [&near, &far] {
        stream.set_read_timeout(Some(PATIENCE)).unwrap();
    }
    near.write_all(b"?").unwrap();
    far.read_exact(&mut [0]).unwrap();
    far.write_all(b"!").unwrap();
    near.read_exact(&mut [0]).unwrap();
    [near, far]
}

/// Both ends are told that it is no more, though neither has said anything since; else they would wait for minutes.
fn must_be_reset(ends: [TcpStream; 2]) {
    for mut end in ends {
        let kind = end.read(&mut [0]).map_err(|error| error.kind());
        assert_eq!(kind, Err(ErrorKind::ConnectionReset));
    }
}

/// As an operator says it.
fn operate(daemon: &Daemon, words: &[&str]) {
    let (code, _, log) = output(control().args(["--socket", &daemon.socket]).args(words));
    assert_eq!(code, Some(0), "{log}");
}

fn count(daemon: &Daemon) -> String {
    daemon.text("count 0")
}

/// A disconnect and a flush end connections at both ends; a director that was killed tells of those that it lost as soon as
/// somebody speaks; and who is not meant goes on.
pub fn both_learn() {
    let place = Place::new("ends");
    let config = CONFIG.replace("unknown drop\nopening-timeout 0\n", "");
    let config = config.replace("server 10.2.0.5:6432 weight 1\n", "");
    let mut daemon = Daemon::start(&place, &config, &[]);
    let (client, server) =
        (Host::new("clients", "10.0.0", "1"), Host::new("servers", "10.1.0", "5"));
    route();
    let listener = server.run(|| TcpListener::bind("10.1.0.5:6432").unwrap());
    let [[near, far], [mut other, mut other_far]] = [(); 2].map(|()| connected(&client, &listener));
    operate(&daemon, &["disconnect", &near.local_addr().unwrap().to_string()]);
    assert_eq!(count(&daemon), "1\n");
    must_be_reset([near, far]);
    other.write_all(b"?").unwrap();
    other_far.read_exact(&mut [0]).unwrap();
    let others = (0..20).map(|_| connected(&client, &listener)).collect::<Vec<_>>();
    assert_eq!(count(&daemon), "21\n");
    operate(&daemon, &["flush", "0"]);
    assert_eq!(count(&daemon), "0\n");
    must_be_reset([other, other_far]);
    others.into_iter().for_each(must_be_reset);
    // a table that is lost
    let [mut near, mut far] = connected(&client, &listener);
    daemon.signal("KILL");
    assert_eq!(daemon.outcome().0, None);
    daemon = Daemon::start(&place, &config, &[]);
    route_again();
    near.write_all(b"?").unwrap();
    far.write_all(b"!").unwrap();
    must_be_reset([near, far]);
    wait_until("the next one is served", || connected(&client, &listener).len() == 2);
    daemon.end_by("TERM");
}

/// A device that is new has no routes.
fn route_again() {
    link::ip("route add 192.0.2.10 dev nid0");
    link::ip("route add default dev nid0 table 100");
}
