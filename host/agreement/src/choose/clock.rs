//! Clocks: mostly now or soon, often at an idle limit's edge, sometimes earlier or far ahead.

use super::packet::used_slot;
use crate::world::World;
use random::Rng;

/// Seconds after last-seen at which something may happen, and those beside them.
pub const EDGES: [u32; 9] = [119, 120, 121, 299, 300, 301, 899, 900, 901];

pub fn clock(rng: &mut Rng, world: &World) -> u32 {
    let now = world.state.clock;
    match rng.below(1_000) {
        // rarely: no later clock is left after it
        0 if rng.permille(150) => u32::MAX - rng.one_of(&[0, 0, 1, 120, 300, 900, 2_000]),
        1..=30 => now.saturating_sub(rng.one_of(&[1, 1, 2, 300])),
        31..=40 => rng.one_of(&[0, now / 2, now.wrapping_add(1 << 31)]),
        41..=180 => edge(rng, world).unwrap_or(now),
        181..=400 => now.saturating_add(rng.below(40) as u32),
        401..=430 => now.saturating_add(rng.below(1_000) as u32),
        _ => now,
    }
}

/// The edge of a used slot's limit; now and then one of another limit.
fn edge(rng: &mut Rng, world: &World) -> Option<u32> {
    let slot = used_slot(rng, world)?;
    let edges = match (rng.permille(100), world.state.service.protocol, slot.phase) {
        (true, ..) => &EDGES[..],
        (_, 17, _) => &EDGES[3..6],
        (_, _, 4) => &EDGES[..3],
        _ => &EDGES[6..],
    };
    Some(slot.last_seen.saturating_add(rng.one_of(edges)))
}
