//! Seeded damages of a director's bytes.

use random::Rng;

/// Bytes that are damaged in one of six ways, and so are others than they were.
pub fn damaged(random: &mut Rng, bytes: &[u8]) -> Vec<u8> {
    let mut damaged = bytes.to_vec();
    while damaged == bytes {
        damage(random, &mut damaged);
    }
    damaged
}

fn damage(random: &mut Rng, bytes: &mut Vec<u8>) {
    let place = random.below(bytes.len());
    let length = 1 + random.below(32.min(bytes.len() - place));
    let other = random.below(bytes.len() - length + 1);
    match random.below(6) {
        0 => (0..1 + random.below(8)).for_each(|_| {
            let place = random.below(bytes.len());
            bytes[place] ^= 1 << random.below(8);
        }),
        1 => bytes[place..place + length].copy_from_slice(&random.bytes(length)),
        2 => bytes[place..place + length].fill(0),
        3 => bytes.copy_within(other..other + length, place),
        4 => drop(bytes.splice(place..place, random.bytes(length))),
        _ => drop(bytes.drain(place..place + length)),
    }
}
