//! As many bytes as an IP header has: a multiple of four from 20 to 60.

use crate::compare::same_sum;
use crate::drawn;
use random::Rng;
use reference::checksum::is_valid;

fn lengths() -> impl Iterator<Item = usize> {
    (20..=60).step_by(4)
}

#[test]
fn drawn_headers() {
    let mut rng = Rng::new(3);
    for length in lengths().flat_map(|length| [length; 5_000]) {
        same_sum(&drawn::bytes(&mut rng, length));
    }
}

#[test]
fn drawn_headers_that_are_valid() {
    let mut rng = Rng::new(4);
    for length in lengths().flat_map(|length| [length; 5_000]) {
        let header = drawn::bytes_of_sum_ffff(&mut rng, length);
        assert!(is_valid(&header) && same_sum(&header) == 0xFFFF, "{header:02X?}");
    }
}
