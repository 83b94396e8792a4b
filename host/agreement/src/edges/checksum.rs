//! Edges of checksums that don't verify: of the header beside each other refusal of a packet, of the transport part.

use super::{Edge, Moment};
use crate::sides::{Reference, Side};
use nidhaaguf::Refusal;
use reference::checksum::is_valid;
use reference::connection::idle_limit;
use reference::data::UDP;
use reference::header::{word, CHECKSUM_AT, SHORTEST};
use reference::packets;

pub const EDGES: [Edge; 20] = [
    ("15, header sum bad too", |m| {
        m.refusal() == Some(Refusal::Unsound) && is_header_sum_bad(m.call.packet())
    }),
    ("6: under 20 bytes, sum bad", |m| is_6_alone(m, Reason::Short)),
    ("6: version, sum bad", |m| is_6_alone(m, Reason::Version)),
    ("6: header length word, sum bad", |m| is_6_alone(m, Reason::HeaderLength)),
    ("6: total below header, sum bad", |m| is_6_alone(m, Reason::TotalBelowHeader)),
    ("6: total above bytes, sum bad", |m| is_6_alone(m, Reason::TotalAboveBytes)),
    ("20, accepted if mended", |m| mended(m) == Some(None)),
    ("20, 7 if mended", |m| is_mended_to(m, Refusal::Fragment)),
    ("20, 8 if mended", |m| is_mended_to(m, Refusal::OtherProtocol)),
    ("20, 9 if mended", |m| is_mended_to(m, Refusal::MalformedTransport)),
    ("20, 10 if mended", |m| is_mended_to(m, Refusal::OtherEndpoint)),
    ("20, 11 if mended", |m| is_mended_to(m, Refusal::EarlierClock)),
    ("20, 12 if mended", |m| is_mended_to(m, Refusal::NoConnection)),
    ("20, 13 if mended", |m| is_mended_to(m, Refusal::TableFull)),
    ("20, 14 if mended", |m| is_mended_to(m, Refusal::NoWeight)),
    ("20, some idle at its clock", |m| is_20(m) && has_idle(m)),
    ("20, checksum 0", |m| is_20(m) && word(m.left, CHECKSUM_AT) == 0),
    ("20, checksum FFFF", |m| is_20(m) && word(m.left, CHECKSUM_AT) == 0xFFFF),
    ("20, IP options", |m| is_20(m) && m.left[0] > 0x45),
    ("transport sum bad, passed", |m| m.passed() && is_transport_sum_bad(m)),
];

fn is_20(moment: &Moment) -> bool {
    moment.refusal() == Some(Refusal::BadChecksum)
}

/// The sum over as many bytes as the header length word says, as far as there are any.
fn is_header_sum_bad(packet: &[u8]) -> bool {
    let length = packet.first().map_or(0, |first| usize::from(first & 15) * 4);
    !packet.is_empty() && !is_valid(&packet[..length.min(packet.len())])
}

/// What 6 is given for.
#[derive(Debug, PartialEq, Eq)]
enum Reason {
    Short,
    Version,
    HeaderLength,
    TotalBelowHeader,
    TotalAboveBytes,
}

fn reasons(packet: &[u8]) -> Vec<Reason> {
    if packet.len() < SHORTEST {
        return vec![Reason::Short];
    }
    let (header, total) = (usize::from(packet[0] & 15) * 4, usize::from(word(packet, 2)));
    let all = [
        (packet[0] >> 4 != 4, Reason::Version),
        (header < SHORTEST, Reason::HeaderLength),
        (total < header, Reason::TotalBelowHeader),
        (total > packet.len(), Reason::TotalAboveBytes),
    ];
    all.into_iter().filter_map(|(is_met, reason)| is_met.then_some(reason)).collect()
}

/// 6 for this reason and no other, while the sum is bad as well.
fn is_6_alone(moment: &Moment, reason: Reason) -> bool {
    let packet = moment.call.packet();
    moment.refusal() == Some(Refusal::MalformedHeader)
        && is_header_sum_bad(packet)
        && reasons(packet) == [reason]
}

/// What a packet that was refused with 20 is refused with when its checksum is mended.
fn mended(moment: &Moment) -> Option<Option<Refusal>> {
    is_20(moment).then(|| {
        let mut packet = moment.call.packet().to_vec();
        packets::mend_header(&mut packet);
        let mut world = moment.before.clone();
        let told = Reference.make(moment.call, &mut world.state, &mut world.row, &mut packet);
        Refusal::of_number(told.refusal)
    })
}

fn is_mended_to(moment: &Moment, refusal: Refusal) -> bool {
    mended(moment) == Some(Some(refusal))
}

/// Some connection would be removed if the packet's clock were accepted.
fn has_idle(moment: &Moment) -> bool {
    let protocol = moment.before.state.service.protocol;
    let clock = moment.call.clock().unwrap_or(0);
    let mut slots = (0..moment.before.slots()).map(|number| moment.before.slot(number));
    slots.any(|slot| {
        let silent = clock.saturating_sub(slot.last_seen);
        slot.is_used() && silent >= idle_limit(protocol, slot.phase)
    })
}

/// UDP's 0, which says that there is none, apart.
fn is_transport_sum_bad(moment: &Moment) -> bool {
    let has_none = moment.sum(UDP, true) == Some(0);
    !has_none && !packets::transport_verifies(moment.call.packet())
}
