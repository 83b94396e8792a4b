//! A client, the director's host, two replicas and another host, each in a network namespace of its own, joined by veth pairs.

use live::system;
use programs::{IP, SYSCTL};
use std::fs::{self, File};
use std::io::{self, Write};
use std::os::fd::AsRawFd;
use std::path::Path;
use std::process::Output;

const CLONE_NEWNET: i32 = 0x4000_0000;

extern "C" {
    fn setns(descriptor: i32, kind: i32) -> i32;
}

/// The hosts around the director, each with its address and the director's on that link, whose end there is called like the host.
const HOSTS: [(&str, &str, &str); 4] = [
    ("client", "10.0.0.1", "10.0.0.2"),
    ("r0", "10.1.0.5", "10.1.0.2"),
    ("r1", "10.2.0.5", "10.2.0.2"),
    ("elsewhere", "10.9.0.1", "10.9.0.2"),
];

/// The namespaces, removed in the end.
pub struct Network {
    /// What the names of all of them begin with.
    pub name: String,
}

/// Runs a test in a network of its own, or says that it was left out.
pub fn in_network(name: &str, test: impl FnOnce(&Network)) {
    let missing = match (system::own_user(), Path::new("/dev/net/tun").exists()) {
        (0, true) => None,
        (0, false) => Some("there is no /dev/net/tun"),
        _ => Some("it needs root"),
    };
    match missing {
        None => test(&Network::make(name)),
        Some(reason) => drop(writeln!(io::stderr(), "routes, {name}: LEFT OUT: {reason}")),
    }
}

impl Network {
    /// The host is as strict as it can be: it doesn't forward, and drops what comes in where it wouldn't send.
    fn make(name: &str) -> Network {
        let network = Network { name: format!("nidroutes{}-{name}", std::process::id()) };
        network.add_namespace("director");
        let strict = ["ip_forward=0", "conf.all.rp_filter=1", "conf.default.rp_filter=1"];
        for setting in strict.map(|setting| format!("net.ipv4.{setting}")) {
            network.must("director", || SYSCTL.run(&["-q", "-w", &setting]));
        }
        HOSTS.iter().for_each(|(host, address, gateway)| network.join(host, address, gateway));
        network
    }

    fn add_namespace(&self, host: &str) {
        assert!(IP.run(&["netns", "add", &self.namespace(host)]).status.success());
        // else the kernel sends packets of its own into the device; where there is no IPv6 it doesn't
        self.enter(host, || fs::write("/proc/sys/net/ipv6/conf/default/disable_ipv6", "1").ok());
        self.ip(host, "link set lo up");
    }

    fn join(&self, host: &str, address: &str, gateway: &str) {
        self.add_namespace(host);
        let theirs = self.namespace(host);
        self.ip("director", &format!("link add {host} type veth peer name eth0 netns {theirs}"));
        self.ip("director", &format!("address add {gateway}/24 dev {host}"));
        self.ip("director", &format!("link set {host} up"));
        self.ip(host, &format!("address add {address}/24 dev eth0"));
        self.ip(host, "link set eth0 up");
        self.ip(host, &format!("route add default via {gateway}"));
    }

    fn namespace(&self, host: &str) -> String {
        format!("{}-{host}", self.name)
    }

    /// Does something at that host; what it starts or opens stays there.
    pub fn enter<T: Send>(&self, host: &str, work: impl FnOnce() -> T + Send) -> T {
        let namespace = File::open(format!("/run/netns/{}", self.namespace(host))).unwrap();
        std::thread::scope(|scope| {
            let thread = scope.spawn(|| {
                // SAFETY: the descriptor is open, and nothing but this thread's network changes.
                let entered = unsafe { setns(namespace.as_raw_fd(), CLONE_NEWNET) };
                assert_eq!(entered, 0, "{}", io::Error::last_os_error());
                work()
            });
            thread.join().unwrap_or_else(|panic| std::panic::resume_unwind(panic))
        })
    }

    /// Runs a program at that host, which must succeed. Gives what it wrote.
    pub fn must(&self, host: &str, run: impl FnOnce() -> Output + Send) -> String {
        let Output { status, stdout, stderr } = self.enter(host, run);
        assert!(status.success(), "{}", String::from_utf8_lossy(&stderr));
        String::from_utf8(stdout).unwrap()
    }

    /// The same with a command of `ip`.
    pub fn ip(&self, host: &str, words: &str) -> String {
        self.must(host, || IP.run(&words.split(' ').collect::<Vec<_>>()))
    }

    /// All that the director's host knows of ways: rules, routes of all tables, and for whom it answers ARP requests.
    pub fn ways(&self) -> [String; 3] {
        ["rule show", "route show table all", "neighbour show proxy"]
            .map(|words| self.ip("director", words).replace(" linkdown", ""))
    }
}

impl Drop for Network {
    fn drop(&mut self) {
        for host in HOSTS.iter().map(|(host, ..)| *host).chain(["director"]) {
            let _ = IP.run(&["netns", "delete", &self.namespace(host)]);
        }
    }
}
