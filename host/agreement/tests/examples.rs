//! "Examples to hold against", on the library: answers written down here, and the reference beside it.

mod support;

use agreement::call::{Call, Told};
use agreement::world::World;
use reference::packets::{self, End, Plan, Sum, ACK, FIN, SYN};
use reference::table::Slot;
use reference::{Server, Service, State};
use support::{refused, told, Both, KEPT, OPENED};

const VIRTUAL: End = (0xC000_020A, 5432);

impl Both {
    fn new(protocol: u8, scheduler: u8, weights: &[u16], slots: usize) -> Both {
        let mut both = Both(World::new());
        assert_eq!(both.set_up(protocol, scheduler, weights, slots * 5).refusal, 0);
        both
    }

    fn set_up(&mut self, protocol: u8, scheduler: u8, weights: &[u16], words: usize) -> Told {
        let servers = weights.len() as u32;
        let service = Service { address: VIRTUAL.0, port: VIRTUAL.1, protocol, scheduler, servers };
        let numbered = (0..servers).map(server).zip(weights);
        let weighted =
            numbered.map(|((address, port), &weight)| Server { address, port, weight, count: 0 });
        self.set_up_servers(service, &weighted.collect::<Vec<_>>(), words)
    }

    fn inbound(&mut self, plan: Plan, clock: u32) -> Told {
        self.make(Call::Inbound { packet: plan.build(), clock }).0
    }

    fn tick(&mut self, clock: u32) -> Told {
        self.make(Call::Tick { clock }).0
    }

    /// `each[n]` connections for server n, of clients 100 and on.
    fn fill(mut self, each: &[u32]) -> Both {
        let mut number = 0;
        for (server, &count) in each.iter().enumerate() {
            for _ in 0..count {
                let (address, port) = client(100 + number as u32);
                let (port, server) = (u32::from(port), server as u32);
                self.0.put(number, Slot { phase: 1, address, port, server, last_seen: 0 });
                number += 1;
            }
            self.0.state.servers[server].count = count;
        }
        assert!(self.0.is_sound());
        self
    }

    fn largest_and_divisor(&self) -> (u16, u16) {
        (self.0.state.largest_weight, self.0.state.weight_divisor)
    }

    /// Servers picked for so many new clients.
    fn picks(&mut self, how_many: u32) -> Vec<u32> {
        let picked = (0..how_many).map(|number| self.inbound(tcp(number, SYN), 0));
        picked.map(|told| (told.change == OPENED).then_some(told.number).unwrap()).collect()
    }
}

fn server(number: u32) -> End {
    (0x0A01_0005 + number, 6432)
}

fn client(number: u32) -> End {
    (0x0A00_0001 + number, 40_000)
}

fn tcp(number: u32, flags: u8) -> Plan {
    packets::tcp(client(number), VIRTUAL, flags)
}

fn udp(number: u32) -> Plan {
    packets::udp(client(number), VIRTUAL)
}

#[test]
fn p1_to_p3_round_robins() {
    let cycle = [0, 0, 1, 0, 1, 2, 0, 1, 2];
    assert_eq!(Both::new(6, 2, &[4, 3, 2], 18).picks(18), [cycle, cycle].concat());
    assert_eq!(Both::new(6, 2, &[2, 4], 6).picks(6), [1, 0, 1, 1, 0, 1]);
    assert_eq!(Both::new(6, 1, &[1, 0, 1], 4).picks(4), [0, 2, 0, 2]);
}

#[test]
fn p4_to_p6_least_connections() {
    assert_eq!(Both::new(6, 3, &[1, 0, 1], 9).fill(&[3, 0, 1]).picks(1), [2]);
    assert_eq!(Both::new(6, 4, &[4, 1, 2], 9).fill(&[2, 1, 1]).picks(1), [0]);
    assert_eq!(Both::new(6, 4, &[1, 3], 9).fill(&[1, 2]).picks(1), [1]);
}

#[test]
fn p7_every_weight_0() {
    for scheduler in 1..=4 {
        let mut both = Both::new(6, scheduler, &[0, 0], 2);
        let before = both.0.clone();
        assert_eq!(both.inbound(tcp(1, SYN), 0), refused(14));
        assert_eq!(both.0, before);
    }
}

#[test]
fn p8_checksum_edit_within_a_packet() {
    // virtual port 5555 (hex) becomes 3285, the addresses stay: only the port word is edited
    let (address, from, to) = (VIRTUAL.0, 0x5555, 0x3285);
    for (protocol, sum_at, left) in [(6, 36, [0, 0]), (17, 26, [0xFF, 0xFF])] {
        let mut both = Both::new(protocol, 1, &[1], 1);
        (both.0.state.service.address, both.0.state.service.port) = (address, from);
        (both.0.state.servers[0].address, both.0.state.servers[0].port) = (address, to);
        let mut plan = match protocol {
            6 => packets::tcp(client(0), (address, from), SYN),
            _ => packets::udp(client(0), (address, from)),
        };
        plan.transport_sum = Sum::Given(0xDD2F);
        let (answer, packet) = both.make(Call::Inbound { packet: plan.build(), clock: 0 });
        assert_eq!(answer, told(0, OPENED));
        assert_eq!(packet[sum_at..sum_at + 2], left);
    }
}

#[test]
fn p9_and_p10_idle_limits() {
    let mut both = Both::new(17, 1, &[1], 1);
    assert_eq!(both.inbound(udp(0), 100), told(0, OPENED));
    assert_eq!(both.tick(399), told(0, 0));
    assert_eq!(both.tick(400), told(1, 0));

    let mut both = Both::new(6, 1, &[1], 1);
    assert_eq!(both.inbound(tcp(0, SYN), 99), told(0, OPENED));
    assert_eq!(both.inbound(tcp(0, FIN | ACK), 100), told(0, KEPT));
    let packet = packets::tcp(server(0), client(0), FIN | ACK).build();
    assert_eq!(both.make(Call::Outbound { packet, clock: 100 }).0, told(0, KEPT));
    assert_eq!(both.tick(219), told(0, 0));
    assert_eq!(both.make(Call::Count { number: 0 }).0, told(1, 0));
    assert_eq!(both.tick(220), told(1, 0));
}

#[test]
fn p11_whole_packet() {
    let given = "45000028 00004000 40066EC5 0A000001 C000020A \
                 9C401538 00000000 00000000 50020000 325F0000";
    let left = "45000028 00004000 400626CA 0A000001 0A010005 \
                9C401920 00000000 00000000 50020000 E67B0000";
    let packet = packets::bytes_of(given);
    let (answer, packet) = Both::new(6, 1, &[1], 1).make(Call::Inbound { packet, clock: 0 });
    assert_eq!((answer, packet), (told(0, OPENED), packets::bytes_of(left)));
}

/// Whole packets, so that no builder stands between: P11's with one thing changed.
#[test]
fn bad_header_checksums_told_apart() {
    let answer = |header: &str, transport: &str| {
        let packet = packets::bytes_of(&[header, transport].concat());
        Both::new(6, 1, &[1], 1).make(Call::Inbound { packet, clock: 0 }).0
    };
    let transport = "9C401538 00000000 00000000 50020000 325F0000";
    let turned = "9C401538 00000000 00000000 50020000 325F0001";
    let refusals = [
        // time to live 66 for 64; a fragment, protocol 17 and a total length of 39 with it
        ("45000028 00004000 42066EC5 0A000001 C000020A", 20),
        ("45000028 00006000 42066EC5 0A000001 C000020A", 20),
        ("45000028 00004000 42116EC5 0A000001 C000020A", 20),
        ("45000027 00004000 42066EC5 0A000001 C000020A", 20),
        // version 6, header length word 4, total lengths of 19 and 41 with it
        ("65000028 00004000 42066EC5 0A000001 C000020A", 6),
        ("44000028 00004000 42066EC5 0A000001 C000020A", 6),
        ("45000013 00004000 42066EC5 0A000001 C000020A", 6),
        ("45000029 00004000 42066EC5 0A000001 C000020A", 6),
    ];
    for (header, number) in refusals {
        assert_eq!(answer(header, transport), refused(number), "{header}");
    }
    let p11 = "45000028 00004000 40066EC5 0A000001 C000020A";
    assert_eq!(answer(p11, turned), told(0, OPENED));
    // FFFF where a fresh one is 0000
    let ffff = "45000028 6EC54000 4006FFFF 0A000001 C000020A";
    assert_eq!(answer(ffff, transport), told(0, OPENED));
}

#[test]
fn largest_weight_and_divisor() {
    for scheduler in 1..=4 {
        let mut both = Both::new(6, scheduler, &[6, 4, 0], 1);
        assert_eq!(both.largest_and_divisor(), (6, 2));
        for (number, weight, held) in
            [(0, 6, (6, 2)), (0, 3, (4, 1)), (0, 0, (4, 4)), (1, 0, (0, 0)), (2, 9, (9, 9))]
        {
            assert_eq!(both.make(Call::SetWeight { number, weight }).0, told(0, 0));
            assert_eq!(both.largest_and_divisor(), held);
        }
        let right = both.0.state;
        for (largest_weight, weight_divisor) in [(8, 9), (9, 3), (0, 0)] {
            both.0.state = State { largest_weight, weight_divisor, ..right };
            assert_eq!(both.tick(0), refused(15));
            assert_eq!(both.make(Call::SetWeight { number: 2, weight: 9 }).0, refused(15));
        }
    }
}

#[test]
fn one_slot_used_and_live() {
    let mut both = Both::new(6, 1, &[1], 1);
    assert_eq!(both.inbound(tcp(0, SYN), 5), told(0, OPENED));
    assert_eq!(both.inbound(tcp(1, SYN), 5), refused(13));
    assert_eq!(both.make(Call::SetWeight { number: 0, weight: 0 }).0, told(0, 0));
    assert_eq!(both.inbound(tcp(1, SYN), 5), refused(13));
    assert_eq!(both.inbound(tcp(1, SYN), 905), refused(14));
}

#[test]
fn clocks_offsets_and_rows() {
    let mut both = Both::new(6, 1, &[1], 1);
    assert_eq!(both.tick(51), told(0, 0));
    assert_eq!(both.tick(50), refused(11));
    assert_eq!(both.tick(51), told(0, 0));
    let offset = |words| Plan { data_offset: Some(words), ..tcp(0, SYN) };
    assert_eq!(both.inbound(offset(6), 51), refused(9));
    assert_eq!(both.inbound(offset(5), 51), told(0, OPENED));
    assert_eq!(both.set_up(17, 3, &[1, 1], 20_485), refused(1));
    assert_eq!(both.set_up(17, 3, &[1, 1], 20_480), told(0, 0));
}
