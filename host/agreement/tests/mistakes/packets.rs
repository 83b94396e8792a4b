//! Mistakes in the bytes of a packet that leaves.

use crate::support::{is_found, Mistaken};

#[test]
fn udp_checksum_0_edited() {
    is_found(
        &Mistaken(|made, told| {
            if told.change != 0 && !made.is_tcp() {
                made.put_sum(6, [0, 0], [0xFF, 0xFF]);
            }
            told
        }),
        2,
    );
}

#[test]
fn rfc_1141_instead_of_1624() {
    is_found(
        &Mistaken(|made, told| {
            if told.change != 0 && made.is_tcp() {
                made.put_sum(16, [0, 0], [0xFF, 0xFF]);
            }
            told
        }),
        3,
    );
}

#[test]
fn a_byte_past_the_total_length_written() {
    is_found(
        &Mistaken(|made, told| {
            let total = made.packet.get(3).map(|&low| usize::from(low));
            if let (true, Some(past)) = (told.change != 0, made.packet.get_mut(total.unwrap_or(0)))
            {
                *past ^= 1;
            }
            told
        }),
        3,
    );
}
