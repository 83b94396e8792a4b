//! Checksums 0 and FFFF in every form: as they come, as they leave, verifying or not.

use crate::world::World;
use random::Rng;
use reference::checksum::{edit_address, edit_endpoint, fold, sum};
use reference::data::UDP;
use reference::packets::{End, Plan, Sum};

/// The packet's bytes, its checksums often brought to an edge.
pub fn aimed(rng: &mut Rng, mut plan: Plan, world: &World, inbound: bool) -> Vec<u8> {
    let (old, new) = ends_of_edit(rng, &plan, world, inbound);
    let edge = rng.one_of(&[0, 0xFFFF]);
    let on_leaving = edit_endpoint(edge, new, old);
    plan.transport_sum = match rng.below(12) {
        0..=1 => Sum::Given(edge),
        2 => Sum::Given(rng.number() as u16),
        3..=4 => Sum::Given(on_leaving),
        _ => Sum::Right,
    };
    let mut bytes = plan.build();
    if matches!(plan.transport_sum, Sum::Given(_)) && rng.permille(500) {
        make_transport_verify(&mut bytes, &plan);
    }
    match rng.below(12) {
        0 => give_header_sum(&mut bytes, edge),
        1 => give_header_sum(&mut bytes, edit_address(edge, new.0, old.0)),
        _ => {}
    }
    bytes
}

/// What a rewriting would replace, and by what: of some server, perhaps the right one.
fn ends_of_edit(rng: &mut Rng, plan: &Plan, world: &World, inbound: bool) -> (End, End) {
    let used = world.state.used_servers();
    let server = used[rng.below(used.len())];
    let service = &world.state.service;
    match inbound {
        true => (plan.destination, (server.address, server.port)),
        false => (plan.source, (service.address, service.port)),
    }
}

/// Sets the first whole word of data so that the transport checksum verifies as it stands.
pub fn make_transport_verify(bytes: &mut [u8], plan: &Plan) {
    let header = usize::from(bytes[0] & 15) * 4;
    let total = bytes.len() - plan.trailing.len();
    let data = total - plan.data.len();
    if plan.data.len() < 2 {
        return;
    }
    bytes[data..data + 2].fill(0);
    let payload = (total - header) as u64;
    let pseudo = sum(&bytes[12..20]) + u64::from(plan.protocol) + payload;
    let word = !fold(sum(&bytes[header..total]) + pseudo);
    bytes[data..data + 2].copy_from_slice(&word.to_be_bytes());
    debug_assert!(plan.protocol != UDP || data - header == 8);
}

/// Gives the header this checksum, and sets its identification so that it verifies.
pub fn give_header_sum(bytes: &mut [u8], given: u16) {
    let header = usize::from(bytes[0] & 15) * 4;
    bytes[4..6].fill(0);
    bytes[10..12].copy_from_slice(&given.to_be_bytes());
    let identification = !fold(sum(&bytes[..header]));
    bytes[4..6].copy_from_slice(&identification.to_be_bytes());
}
