//! Mistakes about a header checksum that is not valid: its number, its place in the order, what it changes, what is valid.

use crate::support::{is_found, refused, Made, Mistaken};
use agreement::call::{Call, Told};
use agreement::sides::{Reference, Side};
use reference::checksum::{fold, is_valid, sum};
use reference::header::{word, SHORTEST};
use reference::State;

/// The header of the packet that came, as long as its length word says, where there are so many bytes.
fn header<'a>(made: &Made<'a>) -> Option<&'a [u8]> {
    let packet = made.call.packet();
    let length = usize::from(packet.first()? & 15) * 4;
    packet.get(..length).filter(|header| header.len() >= SHORTEST)
}

/// One number in place of another, of such headers.
fn instead(made: &Made, told: Told, (given, due): (u32, u32), is_such: fn(&[u8]) -> bool) -> Told {
    match told.refusal == due && header(made).is_some_and(is_such) {
        true => refused(given),
        false => told,
    }
}

fn is_version_4(header: &[u8]) -> bool {
    header[0] >> 4 == 4
}

/// The mistake gives one number where another is due, and does nothing else wrong.
fn is_told_for(side: &dyn Side, given: u32, due: u32) {
    let complaint = is_found(side, 2);
    assert_eq!(complaint, format!("answer {:?}, not {:?}", refused(given), refused(due)));
}

#[test]
fn a_bad_checksum_told_as_6() {
    is_told_for(&Mistaken(|made, told| instead(made, told, (6, 20), |_| true)), 6, 20);
}

#[test]
fn told_20_where_a_length_is_wrong_too() {
    let mistaken = Mistaken(|made, told| {
        instead(made, told, (20, 6), |header| is_version_4(header) && !is_valid(header))
    });
    is_told_for(&mistaken, 20, 6);
}

#[test]
fn told_20_where_the_version_is_wrong_too() {
    let mistaken = Mistaken(|made, told| {
        instead(made, told, (20, 6), |header| !is_version_4(header) && !is_valid(header))
    });
    is_told_for(&mistaken, 20, 6);
}

#[test]
fn a_fragment_with_a_bad_checksum_told_as_7() {
    let mistaken =
        Mistaken(|made, told| instead(made, told, (7, 20), |header| word(header, 6) & 0x3FFF != 0));
    is_told_for(&mistaken, 7, 20);
}

#[test]
fn told_20_where_the_state_is_unsound_too() {
    let mistaken = Mistaken(|made, told| instead(made, told, (20, 15), |header| !is_valid(header)));
    is_told_for(&mistaken, 20, 15);
}

#[test]
fn the_clock_stored_by_20() {
    let complaint = is_found(
        &Mistaken(|made, told| {
            if let (20, Some(clock)) = (told.refusal, made.call.clock()) {
                made.state.clock = made.state.clock.max(clock);
            }
            told
        }),
        2,
    );
    assert!(complaint.starts_with("state: clock"), "{complaint}");
}

/// Refuses packets with 20 that are to be accepted.
struct TooStrict(fn(&[u8]) -> bool);

impl Side for TooStrict {
    fn make(&self, call: &Call, state: &mut State, row: &mut [u32], packet: &mut [u8]) -> Told {
        let before = (*state, row.to_vec());
        let told = Reference.make(call, state, row, packet);
        if told.change == 0 || !(self.0)(call.packet()) {
            return told;
        }
        *state = before.0;
        row.copy_from_slice(&before.1);
        packet.copy_from_slice(call.packet());
        refused(20)
    }
}

fn is_refused_though_due(is_such: fn(&[u8]) -> bool) {
    let complaint = is_found(&TooStrict(is_such), 3);
    let number = "answer Told { refusal: 20, number: 0, change: 0 }, not Told { refusal: 0,";
    assert!(complaint.starts_with(number), "{complaint}");
}

#[test]
fn compared_with_a_fresh_checksum() {
    // the two differ only where FFFF stands for 0000
    is_refused_though_due(|packet| {
        let header = &packet[..usize::from(packet[0] & 15) * 4];
        let given = word(header, 10);
        given != !fold(sum(header) - u64::from(given))
    });
}

#[test]
fn options_left_out_of_the_sum() {
    is_refused_though_due(|packet| !is_valid(&packet[..SHORTEST]));
}

#[test]
fn transport_checksums_judged() {
    is_refused_though_due(|packet| !reference::packets::transport_verifies(packet));
}
