//! Packets that the daemon must outlast.

use crate::counts::Counts;
use crate::damage::damaged;
use crate::link;
use crate::model::{SERVERS, SLOTS, VIRTUAL};
use crate::rig::Rig;
use random::Rng;
use reference::packets::{tcp, udp, Plan, Sum, ACK, SYN};

const FLOOD: usize = 20_000;

/// A flood of damaged packets: each is counted by its number, and the good ones among them pass.
pub fn damaged_packets(rig: &mut Rig) {
    let mut random = Rng::new(6);
    let flood: Vec<_> = (0..FLOOD).map(|_| damaged(&mut random)).collect();
    rig.send(&flood);
    let counts = rig.model.counts();
    for number in [6, 7, 8, 9, 10, 12, 20] {
        // else the flood isn't what it is meant to be
        assert!(refused(&counts, number) > 50, "{counts:?}");
    }
    rig.end_all();
    rig.must_serve();
}

/// How many packets were refused so, both ways.
fn refused(counts: &Counts, number: u32) -> u64 {
    let of =
        |way| counts.get(&format!("nidhaaguf_refusals_total{{way=\"{way}\",number=\"{number}\"}}"));
    of("inbound") + of("outbound")
}

/// A header of which a bit was turned is refused with 20, for its checksum; a wrong length with 6, whatever the checksum.
pub fn damaged_headers(rig: &mut Rig) {
    let plan = tcp((0x0A00_0001, rig.new_port()), VIRTUAL, SYN);
    let good = plan.build();
    let turned = |bit: usize| {
        let mut packet = good.clone();
        packet[bit / 8] ^= 1 << (bit % 8);
        packet
    };
    // all but the version's and those of the lengths
    let bits = (8..16).chain(32..160);
    must_be_refused(rig, &bits.map(turned).collect::<Vec<_>>(), 20, 6);
    let length = good.len() as u16;
    let of_length = |(total, header_sum)| {
        Plan { total_length: Some(total), header_sum, ..plan.clone() }.build()
    };
    // shorter than the header or longer than the packet, under a right and a wrong checksum
    let lengths = (0..20).chain(length + 1..length + 81);
    let lengths = lengths.flat_map(|total| [(total, Sum::Right), (total, Sum::Given(total))]);
    must_be_refused(rig, &lengths.map(of_length).collect::<Vec<_>>(), 6, 20);
    rig.must_serve();
}

/// All of these must be refused with the one number and none with the other, by the daemon's own metrics.
fn must_be_refused(rig: &mut Rig, packets: &[Vec<u8>], number: u32, other: u32) {
    let found = |rig: &Rig| [number, other].map(|number| refused(&rig.counts(), number));
    let [all, none] = found(rig);
    rig.send(packets);
    assert_eq!(found(rig), [all + packets.len() as u64, none]);
}

/// Packets to other ports, addresses and protocols, and from servers that nobody asked.
pub fn other_services(rig: &mut Rig) {
    let client = (0x0A00_0001, 40_000);
    let mut random = Rng::new(10);
    let packets: Vec<_> = (0..1_000)
        .map(|_| match random.below(5) {
            0 => tcp(client, (VIRTUAL.0, random.number() as u16 | 0x8000), SYN).build(),
            1 => tcp(client, (VIRTUAL.0 ^ 1, VIRTUAL.1), SYN).build(),
            2 => udp(client, VIRTUAL).build(),
            3 => tcp(SERVERS[0], client, SYN | ACK).build(),
            _ => tcp((SERVERS[0].0, SERVERS[0].1 + 1), client, ACK).build(),
        })
        .collect();
    rig.send(&packets);
    assert_eq!(rig.model.counts().get("nidhaaguf_slots_used"), 0);
    rig.must_serve();
}

/// More clients than slots: the rest is refused with 13 until there is room again.
pub fn full_table(rig: &mut Rig) {
    let full = "nidhaaguf_refusals_total{way=\"inbound\",number=\"13\"}";
    let before = rig.model.counts().get(full);
    let more = 100;
    let clients: Vec<_> = (0..SLOTS + more).map(|_| (0x0A00_0001, rig.new_port())).collect();
    let of_all =
        |flags| clients.iter().map(|&client| tcp(client, VIRTUAL, flags).build()).collect();
    let syns: Vec<_> = of_all(SYN);
    rig.send(&syns);
    assert_eq!(rig.counts().get(full) - before, more as u64);
    assert_eq!(rig.counts().get("nidhaaguf_slots_used"), SLOTS as u64);
    // those that are in are served on
    let acknowledgements: Vec<_> = of_all(ACK);
    rig.send(&acknowledgements[..SLOTS]);
    rig.end_all();
    rig.must_serve();
}

/// All servers drained: new clients are refused with 14.
pub fn every_weight_zero(rig: &mut Rig) {
    for server in 0..SERVERS.len() as u32 {
        let answer = rig.daemon.text(&format!("drain {server}"));
        assert!(answer.ends_with(": weight 0, 0 connections, may be unplugged\n"), "{answer}");
        rig.model.set_weight(server, 0);
    }
    let openings = rig.openings(10);
    rig.send(&openings);
    let refused = "nidhaaguf_refusals_total{way=\"inbound\",number=\"14\"}";
    assert_eq!(rig.counts().get(refused), 10);
    rig.set_weight(0, 2);
    rig.set_weight(1, 1);
    rig.must_serve();
}

/// The device is set down while packets are on their way: what it doesn't take is counted, and all goes on when it is up.
pub fn device_down_and_up(rig: &mut Rig) {
    let packets = 40;
    // stopped, so that the packets are surely read when the device is down
    rig.daemon.stop();
    for _ in 0..packets {
        let syn = tcp((0x0A00_0001, rig.new_port()), VIRTUAL, SYN).build();
        rig.link.send(&syn);
        assert!(rig.model.take(&syn).is_some());
    }
    link::ip("link set nid0 down");
    rig.daemon.signal("CONT");
    rig.await_packets();
    rig.model.expect_write_failures(packets);
    rig.check();
    for _ in 0..3 {
        link::ip("link set nid0 up");
        rig.must_serve();
        link::ip("link set nid0 down");
    }
    link::ip("link set nid0 up");
    rig.must_serve();
}
