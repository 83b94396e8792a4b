//! The segments that the program itself sends: each byte of them, and which one answers which.

use crate::support::*;
use live::packet::{ACK, FIN, RST, SYN};
use live::segments::Segment;
use nidhaaguf::{Change, Passed};
use programs::TCPDUMP;
use random::Rng;
use reference::packets::{self, bytes_of, header_verifies, transport_verifies, Plan, Sum, PSH};
use std::fs::File;
use std::io::Write;
use std::net::SocketAddrV4;
use std::process::Stdio;

const CLIENT: packets::End = (0x0A00_0001, 40_000);

fn at(words: &str) -> SocketAddrV4 {
    words.parse().unwrap()
}

fn client() -> SocketAddrV4 {
    at("10.0.0.1:40000")
}

fn service() -> SocketAddrV4 {
    at("192.0.2.10:5432")
}

/// The answer to a client's packet: its sequence number, acknowledgment number and flags.
fn answer(plan: &Plan) -> Option<(u32, u32, u8)> {
    let answer = Segment::answer_to(&plan.build())?;
    assert_eq!((answer.from, answer.to), (service(), client()));
    Some((answer.sequence, answer.acknowledgment, answer.flags))
}

#[test]
fn every_byte_of_a_segment() {
    let head = "45000028 00004000 40066EC5 0A000001 C000020A 9C401538 00000000 00000000";
    for (segment, tail) in [
        (Segment::reset(client(), service()), "50040000 325D0000"),
        (Segment::bare_acknowledgment(client(), service()), "50100000 32510000"),
    ] {
        assert_eq!(segment.bytes()[..], bytes_of(&format!("{head} {tail}")));
    }
    let segment = Segment {
        from: at("255.255.255.255:65535"),
        to: at("255.255.255.255:65535"),
        sequence: u32::MAX,
        acknowledgment: 0x0102_0304,
        flags: RST | ACK,
    };
    // FFFF words add nothing: 4006 + 4500 + 0028 + 4000, and 0006 + 0014 + 0102 + 0304 + 5014
    let bytes =
        "45000028 00004000 40063AD1 FFFFFFFF FFFFFFFF FFFFFFFF FFFFFFFF 01020304 50140000 ABCB0000";
    assert_eq!(segment.bytes()[..], bytes_of(bytes));
}

/// Sums of 1FFFF: a carry that is added back carries again.
#[test]
fn a_carry_of_a_carry() {
    let segment = Segment::reset(at("255.255.58.210:65535"), at("0.0.0.0:29968"));
    let bytes =
        "45000028 00004000 4006FFFE FFFF3AD2 00000000 FFFF7510 00000000 00000000 50040000 FFFE0000";
    assert_eq!(segment.bytes()[..], bytes_of(bytes));
}

/// Of the longest packets too.
#[test]
fn long_segments_are_answered() {
    let mut random = Rng::new(29);
    for length in [1_459, 1_460, 65_534 - 40, 65_535 - 40] {
        let (ones, any) = (vec![0xFF; length], random.bytes(length));
        for data in [ones, any] {
            let plan = Plan { data, ..packets::tcp(CLIENT, VIRTUAL, FIN) };
            assert_eq!(answer(&plan), Some((0, 2 + length as u32, RST | ACK)));
        }
    }
}

/// The packets of the builder have sequence number 1 and acknowledgment number 2.
#[test]
fn answers_as_of_a_host_that_does_not_know_the_connection() {
    for (flags, length, expected) in [
        // with ACK: its acknowledgment number, and no other
        (ACK, 0, (2, 0, RST)),
        (ACK | PSH, 13, (2, 0, RST)),
        (SYN | ACK, 0, (2, 0, RST)),
        (FIN | ACK, 5, (2, 0, RST)),
        // without: all that it has is acknowledged, SYN and FIN counted
        (0, 0, (0, 1, RST | ACK)),
        (PSH, 13, (0, 14, RST | ACK)),
        (SYN, 0, (0, 2, RST | ACK)),
        (FIN, 0, (0, 2, RST | ACK)),
        (SYN, 7, (0, 9, RST | ACK)),
        (FIN, 7, (0, 9, RST | ACK)),
        (SYN | FIN, 7, (0, 10, RST | ACK)),
    ] {
        let plan = Plan { data: vec![0xAB; length], ..packets::tcp(CLIENT, VIRTUAL, flags) };
        assert_eq!(answer(&plan), Some(expected), "{flags:02x}, {length} bytes");
        let trailing = vec![0x55; 9];
        for (ip_options, tcp_options) in [(4, 0), (0, 4), (40, 40)] {
            let (ip_options, tcp_options) = (vec![1; ip_options], vec![1; tcp_options]);
            let other =
                Plan { ip_options, tcp_options, trailing: trailing.clone(), ..plan.clone() };
            assert_eq!(answer(&other), Some(expected), "{other:?}");
        }
    }
}

#[test]
fn sequence_numbers_wrap() {
    let segment =
        |sequence, flags| Segment { sequence, flags, ..Segment::reset(client(), service()) };
    let acknowledgment =
        |segment: Segment| Segment::answer_to(&segment.bytes()).unwrap().acknowledgment;
    assert_eq!(acknowledgment(segment(u32::MAX, SYN)), 0);
    assert_eq!(acknowledgment(segment(u32::MAX, SYN | FIN)), 1);
    assert_eq!(acknowledgment(segment(0x7FFF_FFFF, FIN)), 0x8000_0000);
}

/// Both ways: to a server it comes from the client.
#[test]
fn an_answer_goes_back_to_the_sender() {
    let packet = packets::tcp(SERVER, CLIENT, ACK).build();
    let answer = Segment::answer_to(&packet).unwrap();
    assert_eq!((answer.from, answer.to), (client(), at("10.1.0.5:6432")));
}

#[test]
fn what_gets_no_answer() {
    let good = packets::tcp(CLIENT, VIRTUAL, ACK).with_options_and_data();
    assert!(answer(&good).is_some());
    for flags in [RST, RST | ACK, RST | SYN, 0xFF] {
        assert_eq!(answer(&Plan { flags, ..good.clone() }), None, "{flags:02x}");
    }
    for plan in [
        Plan { transport_sum: Sum::Given(0), ..good.clone() },
        Plan { transport_sum: Sum::Given(0xFFFF), ..good.clone() },
        Plan { data_offset: Some(4), ..good.clone() },
        Plan { data_offset: Some(15), ..good.clone() },
        Plan { header_words: Some(4), ..good.clone() },
        Plan { version: Some(6), ..good.clone() },
        Plan { total_length: Some(200), ..good.clone() },
        Plan { written_protocol: Some(17), ..good.clone() },
        packets::udp(CLIENT, VIRTUAL),
    ] {
        assert_eq!(answer(&plan), None, "{plan:?}");
    }
    for source in [0, 0x7F00_0001, 0xE000_0001, 0xEFFF_FFFF, u32::MAX] {
        assert_eq!(Segment::answer_to(&packets::tcp((source, 1), VIRTUAL, ACK).build()), None);
    }
}

/// A packet cut anywhere gets none, and so does one with a byte of the segment changed.
#[test]
fn damaged_segments_get_no_answer() {
    let whole = packets::tcp(CLIENT, VIRTUAL, ACK).with_options_and_data().build();
    let end = whole.len() - 9;
    for length in 0..end {
        assert_eq!(Segment::answer_to(&whole[..length]), None, "{length} bytes");
    }
    assert!(Segment::answer_to(&whole[..end]).is_some());
    for place in 28..end {
        let mut other = whole.clone();
        other[place] ^= 0x10;
        assert_eq!(Segment::answer_to(&other), None, "byte {place}");
    }
}

#[test]
fn any_bytes_may_come() {
    let mut random = Rng::new(25);
    for _ in 0..20_000 {
        let length = random.below(90);
        let mut bytes = random.bytes(length);
        if let [first, _, high, _, ..] = bytes.as_mut_slice() {
            (*first, *high) = (0x45, 0);
        }
        Segment::answer_to(&bytes);
    }
}

/// The library takes the client's segments as those of its connection: the reset ends it.
#[test]
fn the_library_accepts_them() {
    let mut instance = instance();
    assert!(pass(&mut instance, &packets::tcp(CLIENT, VIRTUAL, SYN).build()).is_some());
    let mut director = instance.director().clone();
    for (segment, change) in [
        (Segment::bare_acknowledgment(client(), service()), Change::Kept),
        (Segment { sequence: 7, ..Segment::reset(client(), service()) }, Change::Ended),
    ] {
        let mut bytes = segment.bytes();
        assert!(header_verifies(&bytes) && transport_verifies(&bytes));
        assert_eq!(director.inbound(&mut bytes, 0), Ok(Passed { server: 0, change }));
        assert!(header_verifies(&bytes) && transport_verifies(&bytes));
    }
}

/// Segments between any two ends, with any numbers.
fn any_segments() -> Vec<Segment> {
    let mut random = Rng::new(26);
    let mut end = || SocketAddrV4::new((random.number() as u32).into(), random.number() as u16);
    let ends: Vec<_> = (0..300).map(|_| (end(), end())).collect();
    let mut random = Rng::new(27);
    let segment = |(from, to)| Segment {
        from,
        to,
        sequence: random.number() as u32,
        acknowledgment: random.number() as u32,
        flags: random.one_of(&[RST, ACK, RST | ACK]),
    };
    ends.into_iter().map(segment).collect()
}

/// What tcpdump says of them, from a file of packets without a link header.
#[test]
fn tcpdump_finds_all_checksums_right() {
    let path = format!("{}/segments.pcap", env!("CARGO_TARGET_TMPDIR"));
    let mut file = File::create(&path).unwrap();
    let head: [u32; 6] = [0xA1B2_C3D4, 0x0004_0002, 0, 0, 65_535, 101];
    head.iter().for_each(|word| file.write_all(&word.to_ne_bytes()).unwrap());
    let segments = any_segments();
    for segment in &segments {
        let record: [u32; 4] = [1, 0, 40, 40];
        record.iter().for_each(|word| file.write_all(&word.to_ne_bytes()).unwrap());
        file.write_all(&segment.bytes()).unwrap();
    }
    let mut command = TCPDUMP.command();
    command.args(["-nn", "-vv", "-r", "-"]).stdin(File::open(&path).unwrap()).stderr(Stdio::null());
    let output = command.output().unwrap_or_else(|error| {
        panic!("{}, of Debian's package {}: {error}", TCPDUMP.name(), TCPDUMP.package())
    });
    let text = String::from_utf8(output.stdout).unwrap();
    assert_eq!(text.matches(" (correct)").count(), segments.len(), "{text}");
    assert!(!text.contains("bad") && !text.contains("incorrect"), "{text}");
    assert_eq!(
        text.matches("ttl 64, id 0, offset 0, flags [DF], proto TCP (6), length 40").count(),
        300
    );
}
