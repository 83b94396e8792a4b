//! What `nidhaagufctl routes` refuses, and how it tells that.

use crate::network::in_network;
use crate::routes::{NEAR, NOTHING};
use crate::service::{routes, Service};

#[test]
fn wrong_words_are_told() {
    in_network("words", |network| {
        for (words, wanted) in [
            (&["--up"][..], "--config FILE is missing\nusage: nidhaagufctl routes "),
            (&["--config", "f"], "expected one of --up, --down and --print\n"),
            (&["--up", "--down", "--config", "f"], "expected one of --up, --down and --print\n"),
            (&["--up", "--config"], "--config: expected a value after it\n"),
            (&["--raise"], "\"--raise\": there is no such flag\n"),
            (&["--up", "10.0.0.1"], "\"10.0.0.1\": there is no such flag\n"),
            (&[], "expected one of "),
        ] {
            let (code, told) = routes(network, words);
            assert_eq!(code, Some(2), "{words:?}: {told}");
            assert!(told.starts_with(&format!("nidhaagufctl: {wanted}")), "{words:?}: {told}");
        }
        let (code, told) = routes(network, &["--up", "--config", "/nowhere/at.conf"]);
        assert_eq!(
            (code, told.starts_with("nidhaagufctl: /nowhere/at.conf: can't be opened: ")),
            (Some(1), true),
            "{told}"
        );
    });
}

#[test]
fn what_cannot_be_routed_is_refused_and_changes_nothing() {
    in_network("refused", |network| {
        network.ip("director", "tuntap add dev nid0 mode tun");
        let before = network.ways();
        for (from, to, wanted) in [
            ("10.2.0.5:6432", "172.16.0.5:6432", "expected a route to server 172.16.0.5:6432, got: ip route get 172.16.0.5: RTNETLINK"),
            ("10.0.0.100:5432", "10.0.0.2:5432", "line 1: 10.0.0.2 is an address of this host itself"),
            ("weight 1", "weight many", "line 3: expected a weight, 0 to 65535, got \"many\""),
            ("10.2.0.5:6432", "10.1.0.5:6432", "line 4: "),
        ] {
            let service = Service::new(network, "wrong", &NEAR.replace(from, to));
            let (code, told) = service.routes(network, &["--up"]);
            assert_eq!(code, Some(1), "{told}");
            assert!(told.contains(wanted), "{told}");
            assert_eq!(network.ways(), before);
        }
    });
}

#[test]
fn two_services_cannot_share_a_server_and_nobody_shares_a_table() {
    in_network("shared", |network| {
        for device in ["nid0", "nid1"] {
            network.ip("director", &format!("tuntap add dev {device} mode tun"));
        }
        let first = Service::new(network, "first", NEAR);
        first.must_route(network, "--up");
        let up = network.ways();
        let second =
            Service::new(network, "second", &(NEAR.replace(":5432", ":5433") + "device nid1\n"));
        let (code, told) = second.routes(network, &["--up"]);
        assert_eq!(code, Some(1), "{told}");
        assert!(
            told.contains("line 3: 10.1.0.5:6432 is a server of another service on this host"),
            "{told}"
        );
        assert_eq!(network.ways(), up);
        first.must_route(network, "--down");
        let script = second.must_route(network, "--print");
        let table = script.split(" table ").nth(1).and_then(|rest| rest.split(' ').next()).unwrap();
        for strange in [
            format!("route add 10.77.0.0/16 dev r0 table {table}"),
            format!("rule add from 10.77.0.1 lookup {table}"),
        ] {
            network.ip("director", &strange);
            let before = network.ways();
            let (code, told) = second.routes(network, &["--up"]);
            assert_eq!(code, Some(1), "{told}");
            assert!(
                told.contains("something else has made there: ") && told.contains("10.77.0."),
                "{told}"
            );
            assert!(second.must_route(network, "--down").starts_with(NOTHING));
            assert_eq!(network.ways(), before);
            network.ip("director", &strange.replace(" add ", " delete "));
        }
    });
}

#[test]
fn without_rights_the_command_that_failed_is_told() {
    in_network("rights", |network| {
        network.ip("director", "tuntap add dev nid0 mode tun");
        let service = Service::new(network, "near", NEAR);
        let (code, told) = service.routes_without_rights(network);
        assert_eq!(code, Some(1), "{told}");
        let failed = "sysctl -q -w net/ipv4/ip_forward=1: ";
        assert!(told.starts_with(&format!("nidhaagufctl: {failed}")), "{told}");
        assert!(told.contains("Operation not permitted"), "{told}");
    });
}

#[test]
fn what_was_done_before_a_failure_is_told_and_removed_by_down() {
    in_network("halfway", |network| {
        network.ip("director", "tuntap add dev nid0 mode tun");
        let service = Service::new(network, "near", NEAR);
        let script = service.must_route(network, "--print");
        let in_the_way = script
            .lines()
            .find(|line| line.starts_with("ip route add 10.0.0.100 dev nid0 "))
            .unwrap();
        let in_the_way = in_the_way.replace("dev nid0", "dev r0").replace(" protocol 110", "");
        network.ip("director", in_the_way.strip_prefix("ip ").unwrap());
        let before = network.ways();
        let (code, told) = service.routes(network, &["--up"]);
        assert_eq!(code, Some(1), "{told}");
        assert!(
            told.ends_with(": RTNETLINK answers: File exists\n")
                && told.contains("ip route add blackhole "),
            "{told}"
        );
        service.must_route(network, "--down");
        assert_eq!(network.ways(), before);
    });
}
