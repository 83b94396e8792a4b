//! Summing by groups of four bytes, folded at the end, gives what adding the 16-bit words one by one gives, each carry added back.

use crate::random::Rng;
use reference::checksum::{fold, sum};

/// Those of 65,532 bytes.
const MOST_GROUPS: u64 = 16_383;

/// The bits above the lowest 16, added to these.
fn folded_once(sum: u64) -> u64 {
    (sum & 0xFFFF) + (sum >> 16)
}

fn folded(sum: u64, times: usize) -> u64 {
    (0..times).fold(sum, |left, _| folded_once(left))
}

/// A word added, and the carry added back.
fn added(sum: u16, word: u16) -> u16 {
    let (sum, is_carried) = sum.overflowing_add(word);
    sum + u16::from(is_carried)
}

/// Some bytes, summed in both ways as they come.
#[derive(Default)]
struct Summed {
    bytes: Vec<u8>,
    by_groups: u64,
    by_words: u16,
}

impl Summed {
    fn add(&mut self, group: [u8; 4]) {
        let [first, second, third, fourth] = group;
        self.by_groups += u64::from(u32::from_be_bytes(group));
        for word in [[first, second], [third, fourth]] {
            self.by_words = added(self.by_words, u16::from_be_bytes(word));
        }
        self.bytes.extend(group);
    }

    /// Both ways and the second implementation agree, and 0 is the sum of zeros alone.
    fn check(&self) {
        let length = self.bytes.len();
        let by_reference = fold(sum(&self.bytes));
        assert_eq!(self.by_words, by_reference, "{length} bytes");
        assert_eq!(folded(self.by_groups, 3), by_reference.into(), "{length} bytes");
        let is_zeros = self.bytes.iter().all(|&byte| byte == 0);
        assert_eq!(by_reference == 0, is_zeros, "{length} bytes");
    }
}

/// At how many lengths something was met.
#[derive(Debug, Default, PartialEq)]
struct Met {
    sum_0: u64,
    sum_ffff: u64,
    two_folds_too_few: u64,
}

impl Met {
    fn add(&mut self, summed: &Summed) {
        self.sum_0 += u64::from(summed.by_words == 0);
        self.sum_ffff += u64::from(summed.by_words == 0xFFFF);
        self.two_folds_too_few += u64::from(folded(summed.by_groups, 2) > 0xFFFF);
    }
}

/// Checks every multiple of four up to 65,532 bytes; each group is chosen by the sum of the words before it.
fn check_lengths(mut group: impl FnMut(u16) -> [u8; 4]) -> Met {
    let (mut summed, mut met) = (Summed::default(), Met::default());
    summed.check();
    for _ in 0..MOST_GROUPS {
        summed.add(group(summed.by_words));
        summed.check();
        met.add(&summed);
    }
    assert_eq!(summed.bytes.len(), 65_532);
    met
}

#[test]
fn every_length_of_bytes_00() {
    let met = check_lengths(|_| [0x00; 4]);
    assert_eq!(met, Met { sum_0: MOST_GROUPS, ..Met::default() });
}

#[test]
fn every_length_of_bytes_ff() {
    let met = check_lengths(|_| [0xFF; 4]);
    assert_eq!(met, Met { sum_ffff: MOST_GROUPS, ..Met::default() });
}

/// A group with many bytes 00 and FF; in one of ten the second word makes the sum FFFF.
fn drawn(rng: &mut Rng, by_words: u16) -> [u8; 4] {
    let [first, second, third, fourth] = [0; 4].map(|_| match rng.below(4) {
        0 => 0x00,
        1 => 0xFF,
        _ => rng.next() as u8,
    });
    if !rng.permille(100) {
        return [first, second, third, fourth];
    }
    let before = added(by_words, u16::from_be_bytes([first, second]));
    let [third, fourth] = (!before).to_be_bytes();
    [first, second, third, fourth]
}

/// Zeros come first, so that sums of 0 are met.
fn every_length_of_drawn_bytes(seed: u64) {
    let mut rng = Rng::new(seed);
    let mut zeros = [[0x00; 4]; 100].into_iter();
    let met = check_lengths(|by_words| zeros.next().unwrap_or_else(|| drawn(&mut rng, by_words)));
    let is_enough = met.sum_0 >= 100 && met.sum_ffff > 1_000 && met.two_folds_too_few > 500;
    assert!(is_enough, "{met:?}");
}

#[test]
fn every_length_of_some_drawn_bytes() {
    every_length_of_drawn_bytes(1);
}

#[test]
fn every_length_of_other_drawn_bytes() {
    every_length_of_drawn_bytes(2);
}

#[test]
fn of_eight_bytes_two_folds_may_be_too_few() {
    let mut summed = Summed::default();
    summed.add([0xFF, 0xFF, 0xFF, 0xFF]);
    summed.add([0x00, 0x01, 0x00, 0x00]);
    summed.check();
    assert_eq!([1, 2, 3].map(|times| folded(summed.by_groups, times)), [0x1FFFF, 0x10000, 0x0001]);
}

/// All that so many folds may leave of the sum of so many groups; not all of it need occur.
fn possibly_left(groups: u64, folds: usize) -> impl Iterator<Item = u64> {
    let most = groups * u64::from(u32::MAX);
    0..=(0..folds).fold(most, |most, _| 0xFFFF + (most >> 16))
}

#[test]
fn of_four_bytes_two_folds_are_enough() {
    assert!(possibly_left(1, 1).all(|sum| folded_once(sum) <= 0xFFFF));
}

#[test]
fn three_folds_are_always_enough() {
    assert!(possibly_left(MOST_GROUPS, 2).all(|sum| folded_once(sum) <= 0xFFFF));
}

/// So a third fold that is left out shows in a sum, but in no answer about a header.
#[test]
fn whether_the_sum_is_ffff_two_folds_tell_as_well() {
    assert!(possibly_left(MOST_GROUPS, 2)
        .all(|sum| (sum as u16 == 0xFFFF) == (folded_once(sum) == 0xFFFF)));
}
