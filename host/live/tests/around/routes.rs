//! `nidhaagufctl routes` on hosts with real interfaces, and TCP through the real daemon by the routes that it makes.

use crate::network::{in_network, Network};
use crate::service::Service;
use crate::sessions::{listen, must_reach, Session};
use programs::{BASH, IP, SYSCTL};

/// In the client's network.
pub const NEAR: &str = "\
service 10.0.0.100:5432 tcp
scheduler round-robin
server 10.1.0.5:6432 weight 1
server 10.2.0.5:6432 weight 1
";
const SERVERS: [&str; 2] = ["r0 10.1.0.5:6432", "r1 10.2.0.5:6432"];
pub const NOTHING: &str = "nothing has changed\n";

/// The servers of that port, on both replicas.
fn listen_on_both(network: &Network, port: &str) {
    listen(network, "r0", &format!("10.1.0.5:{port}"));
    listen(network, "r1", &format!("10.2.0.5:{port}"));
}

#[test]
fn one_service_from_an_untouched_host_and_back() {
    in_network("one", |network| {
        listen_on_both(network, "6432");
        // the filter of all interfaces counts for it all the same
        network.must("director", || SYSCTL.run(&["-q", "-w", "net.ipv4.conf.r0.rp_filter=0"]));
        let service = Service::new(network, "near", NEAR).serve(network);
        let before = network.ways();
        let unreached = Session::open(network, "client", "10.0.0.100:5432");
        assert!(unreached.is_err(), "there is no route yet");
        let told = service.must_route(network, "--up");
        for part in [
            "sysctl -q -w net/ipv4/ip_forward=1\n",
            "rp_filter=2\n",
            "ip link set nid0 up\n",
            "sport 6432",
        ] {
            assert!(told.contains(part), "{part}: {told}");
        }
        let mut sessions =
            SERVERS.map(|server| must_reach(network, "client", "10.0.0.100:5432", server));
        for device in ["nid0", "r0", "r1"] {
            let name = format!("net.ipv4.conf.{device}.rp_filter");
            assert_eq!(network.must("director", || SYSCTL.run(&["-n", &name])), "2\n", "{name}");
        }
        let up = network.ways();
        assert_eq!(service.must_route(network, "--up"), NOTHING);
        assert_eq!(network.ways(), up);
        sessions.iter_mut().for_each(|session| session.must_repeat("still here"));
        let told = service.must_route(network, "--down");
        assert!(
            told.ends_with("the device and the kernel's settings are left as they are\n"),
            "{told}"
        );
        // the device's own addresses come with its being up, and it has none
        assert_eq!(network.ways(), before);
        assert!(service.must_route(network, "--down").starts_with(NOTHING));
    });
}

#[test]
fn two_services_of_one_address_and_the_same_replicas() {
    in_network("two", |network| {
        ["6432", "7432", "9999"].iter().for_each(|port| listen_on_both(network, port));
        listen(network, "elsewhere", "10.9.0.1:80");
        let other = NEAR.replace(":5432", ":5433").replace(":6432", ":7432") + "device nid1\n";
        let services = [("first", NEAR), ("second", &other)]
            .map(|(name, config)| Service::new(network, name, config).serve(network));
        let before = network.ways();
        services[0].must_route(network, "--up");
        let one = network.ways();
        services[1].must_route(network, "--up");
        assert_eq!(
            services.each_ref().map(|service| service.must_route(network, "--up")),
            [NOTHING; 2]
        );
        let mut first = must_reach(network, "client", "10.0.0.100:5432", "r0 10.1.0.5:6432");
        let mut second = must_reach(network, "client", "10.0.0.100:5433", "r0 10.1.0.5:7432");
        must_pass_by_the_main_table(network);
        first.must_repeat("both");
        second.must_repeat("at once");
        services[1].must_route(network, "--down");
        assert_eq!(network.ways(), one);
        first.must_repeat("the other one is gone");
        must_reach(network, "client", "10.0.0.100:5432", "r1 10.2.0.5:6432");
        services[0].must_route(network, "--down");
        assert_eq!(network.ways(), before);
    });
}

/// What isn't between a client and the service is routed as ever: replica to replica also from a port of the service, the director's
/// host to a replica, and a replica to others and back from any other port.
fn must_pass_by_the_main_table(network: &Network) {
    for port in ["6432", "7432"] {
        must_reach(network, "r1", &format!("10.1.0.5:{port}"), &format!("r0 10.1.0.5:{port}"));
        must_reach(
            network,
            "director",
            &format!("10.2.0.5:{port}"),
            &format!("r1 10.2.0.5:{port}"),
        );
    }
    must_reach(network, "r0", "10.9.0.1:80", "elsewhere 10.9.0.1:80");
    must_reach(network, "elsewhere", "10.2.0.5:9999", "r1 10.2.0.5:9999");
    must_reach(network, "client", "10.1.0.5:9999", "r0 10.1.0.5:9999");
}

/// Which way an answer of a replica would take to the client, if it came in at that interface.
fn way_of_answer(network: &Network, interface: &str) -> Result<String, String> {
    let words = format!(
        "route get 10.0.0.1 from 10.1.0.5 iif {interface} ipproto tcp sport 6432 dport 40000"
    );
    let output = network.enter("director", || IP.run(&words.split(' ').collect::<Vec<_>>()));
    let text = |bytes| String::from_utf8(bytes).unwrap();
    if output.status.success() {
        Ok(text(output.stdout))
    } else {
        Err(text(output.stderr))
    }
}

#[test]
fn nothing_leaks_while_the_device_is_gone_and_down_removes_all_the_same() {
    in_network("gone", |network| {
        listen_on_both(network, "6432");
        let before = network.ways();
        let mut service = Service::new(network, "near", NEAR).serve(network);
        service.must_route(network, "--up");
        let up = network.ways();
        assert!(way_of_answer(network, "r0").unwrap().contains(" dev nid0 "));
        // from elsewhere the same packet is forged, and may not come to the device, also where no filter stops it
        let open = ["all", "elsewhere"].map(|name| format!("net.ipv4.conf.{name}.rp_filter=0"));
        network.must("director", || SYSCTL.run(&["-q", "-w", &open[0], &open[1]]));
        assert!(way_of_answer(network, "elsewhere").unwrap().contains(" dev client "));
        service.kill();
        // so says ip of a blackhole
        assert!(way_of_answer(network, "r0").unwrap_err().contains("Invalid argument"));
        let (code, told) = service.routes(network, &["--up"]);
        assert_eq!(code, Some(1));
        assert!(
            told.contains("Device \"nid0\" does not exist")
                && told.contains("ip tuntap add dev nid0"),
            "{told}"
        );
        service = service.serve(network);
        let again = service.must_route(network, "--up");
        assert!(again.contains("ip link set nid0 up\n") && !again.contains("ip rule"), "{again}");
        assert_eq!(network.ways(), up);
        must_reach(network, "client", "10.0.0.100:5432", SERVERS[0]);
        service.kill();
        network.ip("director", "link delete r1");
        assert!(network.ways()[0].contains("iif r1 [detached] "), "{:?}", network.ways());
        service.must_route(network, "--down");
        let [rules, routes, neighbours] = before;
        let left = |line: &&str| !line.contains(" dev r1 ");
        let routes = routes.lines().filter(left).map(|line| format!("{line}\n")).collect();
        assert_eq!(network.ways(), [rules, routes, neighbours]);
    });
}

#[test]
fn the_printed_script_makes_the_same() {
    in_network("print", |network| {
        let service = Service::new(network, "near", NEAR);
        let script = service.must_route(network, "--print");
        network.ip("director", "tuntap add dev nid0 mode tun");
        let before = network.ways();
        network.must("director", || BASH.run(&["-c", &script]));
        let by_script = network.ways();
        assert_eq!(service.must_route(network, "--up"), NOTHING);
        service.must_route(network, "--down");
        assert_eq!(network.ways(), before);
        service.must_route(network, "--up");
        assert_eq!(network.ways(), by_script);
    });
}

#[test]
fn another_configuration_of_a_service_takes_the_place_of_the_last() {
    in_network("other", |network| {
        for device in ["nid0", "nid5"] {
            network.ip("director", &format!("tuntap add dev {device} mode tun"));
            network.ip("director", &format!("link set {device} up"));
        }
        let before = network.ways();
        let service = Service::new(network, "near", NEAR);
        service.must_route(network, "--up");
        service.rewrite("10.2.0.5:6432", "10.2.0.5:7432");
        let told = service.must_route(network, "--up");
        let lines: Vec<&str> = told.lines().collect();
        assert!(
            matches!(lines.as_slice(), [added, removed]
            if added.starts_with("ip rule add ") && added.contains("sport 7432")
            && removed.starts_with("ip rule delete ") && removed.contains("sport 6432")),
            "{told}"
        );
        let (code, told) = service.routes(network, &["--up", "--device", "nid5"]);
        assert_eq!(code, Some(0), "{told}");
        assert!(!network.ways()[1].contains("nid0"), "{:?}", network.ways());
        service.must_route(network, "--down");
        assert_eq!(network.ways(), before);
    });
}

#[test]
fn an_address_beyond_a_router_is_not_answered_for_by_arp() {
    in_network("far", |network| {
        // narrower than the network that it is in
        network.ip("director", "route add 192.0.0.0/16 dev elsewhere");
        network.ip("director", "route add 192.0.2.0/24 via 10.0.0.1");
        let far = Service::new(network, "far", &NEAR.replace("10.0.0.100", "192.0.2.10"));
        let near = Service::new(network, "near", NEAR);
        assert!(!far.must_route(network, "--print").contains("neighbour"));
        let line = "ip neighbour add proxy 10.0.0.100 dev client protocol 110\n";
        assert!(near.must_route(network, "--print").contains(line));
    });
}
