//! Drawn packets through drawn chains, there and back and onwards, with a bias to FFFF and 0.

use crate::chain::{plan, Packet, KINDS};
use crate::one_director::same_as_one_director;
use agreement::call::hex;
use agreement::choose::sums::{give_header_sum, make_transport_verify};
use agreement::many::singly::Way;
use random::Rng;
use reference::data::{TCP, UDP};
use reference::header::CHECKSUM_AT;
use reference::packets::{transport_verifies, End, Plan, Sum};

struct Drawn {
    ends: [End; 3],
    packet: Packet,
}

fn word(rng: &mut Rng) -> u16 {
    match rng.below(3) {
        0 => 0x0000,
        1 => 0xFFFF,
        _ => rng.number() as u16,
    }
}

fn any_end(rng: &mut Rng) -> End {
    (u32::from(word(rng)) << 16 | u32::from(word(rng)), word(rng))
}

/// One that setup accepts.
fn end(rng: &mut Rng) -> End {
    let (address, port) = any_end(rng);
    (address.max(1), port.max(1))
}

fn shaped(rng: &mut Rng, plan: Plan) -> Plan {
    let [ip_options, tcp_options, trailing] = [0; 3].map(|_| match rng.permille(300) {
        true => rng.one_of(&[1, 4, 7, 40]),
        false => 0,
    });
    let data = rng.one_of(&[0, 1, 2, 7, 30]);
    let given = Sum::Given(word(rng));
    Plan {
        ip_options: rng.bytes(ip_options),
        tcp_options: rng.bytes(tcp_options),
        data: rng.bytes(data),
        trailing: rng.bytes(trailing),
        transport_sum: rng.one_of(&[Sum::Right, given, given]),
        ..plan
    }
}

fn packet(rng: &mut Rng, ends: &[End]) -> Packet {
    let (kind, client) = (rng.one_of(&KINDS), any_end(rng));
    let plan = shaped(rng, plan(kind, client, ends));
    let mut bytes = plan.build();
    if plan.transport_sum != Sum::Right && rng.permille(500) {
        make_transport_verify(&mut bytes, &plan);
    }
    if rng.permille(700) {
        give_header_sum(&mut bytes, word(rng));
    }
    Packet { way: kind.1, client, bytes }
}

impl Drawn {
    fn new(rng: &mut Rng) -> Drawn {
        let (first, between, other) = (end(rng), end(rng), end(rng));
        let ends = [first, between, rng.one_of(&[first, other])];
        Drawn { ends, packet: packet(rng, &ends) }
    }

    fn is_there_and_back(&self) -> bool {
        self.ends[0] == self.ends[2]
    }

    /// The packet that came, FFFF in a header or TCP checksum written as 0000.
    fn returned(&self) -> Packet {
        let mut packet = self.packet.clone();
        if packet.header_checksum() == 0xFFFF {
            packet = packet.with_word(CHECKSUM_AT, 0);
        }
        if packet.protocol() == TCP && packet.transport_checksum() == 0xFFFF {
            packet = packet.with_word(packet.transport_checksum_at(), 0);
        }
        packet
    }

    fn check(&self) {
        let left = same_as_one_director(&self.packet, self.ends);
        if self.is_there_and_back() {
            assert_eq!(hex(&left.bytes), hex(&self.returned().bytes), "{:X?}", self.ends);
        }
    }

    fn returns(&self, protocol: u8, checksum: u16) -> bool {
        let packet = &self.packet;
        let is_it = packet.protocol() == protocol && packet.transport_checksum() == checksum;
        self.is_there_and_back() && is_it
    }

    fn verifies(&self) -> bool {
        transport_verifies(&self.packet.bytes)
    }

    /// The old word and the new one of an edit; 0 is the upper word of the address, 2 the port.
    fn edit(&self, at: usize) -> (u16, u16) {
        let words = |(address, port): End| [(address >> 16) as u16, address as u16, port][at];
        let (first, last) = (words(self.ends[0]), words(self.ends[2]));
        match self.packet.way {
            Way::Inbound => (first, last),
            Way::Outbound => (last, first),
        }
    }
}

/// What has to be met, both ways.
const EDGES: [(&str, fn(&Drawn) -> bool); 10] = [
    ("header FFFF returns", |d| d.is_there_and_back() && d.packet.header_checksum() == 0xFFFF),
    ("valid TCP FFFF returns", |d| d.returns(TCP, 0xFFFF) && d.verifies()),
    ("wrong TCP FFFF returns", |d| d.returns(TCP, 0xFFFF) && !d.verifies()),
    ("valid UDP FFFF returns", |d| d.returns(UDP, 0xFFFF) && d.verifies()),
    ("UDP 0 returns", |d| d.returns(UDP, 0x0000)),
    ("upper word FFFF to 0", |d| d.edit(0) == (0xFFFF, 0x0000)),
    ("lower word FFFF to 0", |d| d.edit(1) == (0xFFFF, 0x0000)),
    ("port FFFF to 1", |d| d.edit(2) == (0xFFFF, 0x0001)),
    ("upper word's exception, header", |d| {
        d.edit(0) == (0xFFFF, 0x0000) && d.packet.header_checksum() == 0xFFFF
    }),
    ("upper word's exception, TCP", |d| {
        let packet = &d.packet;
        let is_ffff = packet.protocol() == TCP && packet.transport_checksum() == 0xFFFF;
        is_ffff && d.edit(0) == (0xFFFF, 0x0000)
    }),
];

#[test]
fn drawn_packets_through_drawn_chains() {
    let mut rng = Rng::new(1);
    let drawn: Vec<Drawn> = (0..6_000).map(|_| Drawn::new(&mut rng)).collect();
    drawn.iter().for_each(Drawn::check);
    for (edge, is_met) in EDGES {
        let met = [Way::Inbound, Way::Outbound]
            .map(|way| drawn.iter().filter(|d| d.packet.way == way && is_met(d)).count());
        assert!(met.iter().all(|&times| times >= 10), "{edge}: {met:?}");
    }
}
