//! The firewall of `contrib/` on the director's host, with real TCP through the daemon.

use crate::contrib::{text, Scratch, FIREWALL};
use crate::network::{in_network, Network};
use crate::routes::NEAR;
use crate::service::Service;
use crate::sessions::{listen, Session};
use programs::NFT;

/// More than goes into the sockets' buffers with small segments alone.
const LONG: usize = 200_000;

/// Loads it, for the test's service.
fn load(network: &Network) {
    let rules = text(FIREWALL);
    assert!(rules.contains("define virtual_address = 192.0.2.10\n"), "{rules}");
    let file = Scratch::new("rules.nft", &rules.replace("192.0.2.10", "10.0.0.100"));
    network.must("director", || NFT.run(&["-f", file.name()]));
}

#[test]
fn segments_fit_a_narrow_link_behind_the_director() {
    in_network("narrow", |network| {
        listen(network, "r0", "10.1.0.5:6432");
        let one_server: String = NEAR.lines().take(3).map(|line| format!("{line}\n")).collect();
        let service = Service::new(network, "near", &one_server).serve(network);
        service.must_route(network, "--up");
        network.ip("director", "link set r0 mtu 1400");
        let open = || Session::open(network, "client", "10.0.0.100:5432").unwrap();
        let line = "x".repeat(LONG);
        let stuck = open().say(&line);
        assert!(stuck.is_err(), "without it nobody tells the client of the narrow link");
        load(network);
        open().must_repeat(&line);
    });
}
