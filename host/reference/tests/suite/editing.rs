//! The laws of equation 3's edit: a word edited twice, there and back, and two different words.

use crate::random::Rng;
use reference::checksum::{edit_word, udp_written};
use std::array;

/// The edges, then two ordinary words.
const WORDS: [u16; 8] = [0x0000, 0x0001, 0x7FFF, 0x8000, 0xFFFE, 0xFFFF, 0x3285, 0xCD7A];
const EDGES: usize = 6;

/// A checksum and the words of its edits.
type Case<const N: usize> = (u16, [u16; N]);

/// Every checksum beside every choice of N words among the first ones.
fn every_checksum<const N: usize>(first: usize) -> impl Iterator<Item = Case<N>> {
    let choices = 0..first.pow(N as u32);
    let chosen = move |choice| array::from_fn(|at| WORDS[choice / first.pow(at as u32) % first]);
    choices.map(chosen).flat_map(|words| (0..=0xFFFF).map(move |checksum| (checksum, words)))
}

/// A million cases; FFFF and 0 come so often that five in a row are met.
fn drawn<const N: usize>(seed: u64) -> impl Iterator<Item = Case<N>> {
    let mut rng = Rng::new(seed);
    let mut word = move || match rng.below(3) {
        0 => rng.one_of(&[0x0000, 0xFFFF]),
        1 => rng.one_of(&WORDS),
        _ => rng.next() as u16,
    };
    (0..1_000_000).map(move |_| (word(), array::from_fn(|_| word())))
}

/// Checks a law on all cases, and tells of how many it says yes.
fn count<const N: usize>(
    cases: impl Iterator<Item = Case<N>>,
    law: impl Fn(Case<N>) -> bool,
) -> usize {
    cases.filter(|&case| law(case)).count()
}

/// Law 1, for any number of values between the first and the last; whether the case is its exception.
fn chained<const N: usize>(case: Case<N>) -> bool {
    let (checksum, values) = case;
    let (first, last) = (values[0], values[N - 1]);
    let pairs = values.windows(2);
    let by_others = pairs.fold(checksum, |left, pair| edit_word(left, pair[0], pair[1]));
    let at_once = edit_word(checksum, first, last);
    let is_exception = (checksum, first, last) == (0xFFFF, 0xFFFF, 0x0000);
    match is_exception {
        true => assert_eq!((by_others, at_once), (0x0000, 0xFFFF), "{case:04X?}"),
        false => assert_eq!(by_others, at_once, "{case:04X?}"),
    }
    is_exception
}

#[test]
fn a_to_b_and_then_to_c_is_a_to_c_exactly_unless_ffff_ffff_0() {
    // an exception for each b
    assert_eq!(count(every_checksum(WORDS.len()), chained::<3>), WORDS.len());
    let exceptions = count(drawn(1), chained::<3>);
    assert!(exceptions > 5_000, "{exceptions}");
}

#[test]
fn of_a_longer_chain_the_first_value_and_the_last_count() {
    let exceptions = [count(drawn(7), chained::<4>), count(drawn(8), chained::<9>)];
    assert!(exceptions.iter().all(|&met| met > 5_000), "{exceptions:?}");
}

/// Law 2; whether the case is its exception.
fn there_and_back(case: Case<2>) -> bool {
    let (checksum, [a, b]) = case;
    let returned = edit_word(edit_word(checksum, a, b), b, a);
    let is_exception = checksum == 0xFFFF;
    assert_eq!(returned, if is_exception { 0x0000 } else { checksum }, "{case:04X?}");
    is_exception
}

#[test]
fn there_and_back_returns_the_checksum_and_ffff_as_0() {
    assert_eq!(count(every_checksum(WORDS.len()), there_and_back), WORDS.len().pow(2));
    let exceptions = count(drawn(2), there_and_back);
    assert!(exceptions > 100_000, "{exceptions}");
}

/// Law 3; whether FFFF comes out: of FFFF only, where both words go from FFFF to 0.
fn two_words(case: Case<4>) -> bool {
    let (checksum, [a, b, c, d]) = case;
    let edited = edit_word(edit_word(checksum, a, b), c, d);
    assert_eq!(edited, edit_word(edit_word(checksum, c, d), a, b), "{case:04X?}");
    let stays_ffff = case == (0xFFFF, [0xFFFF, 0x0000, 0xFFFF, 0x0000]);
    assert_eq!(edited == 0xFFFF, stays_ffff, "{case:04X?}");
    stays_ffff
}

#[test]
fn two_different_words_may_come_in_either_order() {
    assert_eq!(count(every_checksum(EDGES), two_words), 1);
    let stay_ffff = count(drawn(3), two_words);
    assert!(stay_ffff > 100, "{stay_ffff}");
}

/// The edit as a rewriter of UDP writes it.
fn edit_udp(checksum: u16, old: u16, new: u16) -> u16 {
    udp_written(edit_word(checksum, old, new))
}

/// 0 means that there is none, and is not edited.
fn is_checksum_of_udp<const N: usize>(case: &Case<N>) -> bool {
    case.0 != 0
}

/// Law 1 for UDP; whether the last edit comes to 0, which is written FFFF.
fn twice_in_udp(case: Case<3>) -> bool {
    let (checksum, [a, b, c]) = case;
    let first = edit_udp(checksum, a, b);
    assert_eq!(edit_udp(first, b, c), edit_udp(checksum, a, c), "{case:04X?}");
    edit_word(first, b, c) == 0
}

#[test]
fn udp_a_to_b_and_then_to_c_is_a_to_c() {
    let edges = every_checksum(WORDS.len()).filter(is_checksum_of_udp);
    // of each choice one checksum, but FFFF stays FFFF where b is FFFF and c is 0
    assert_eq!(count(edges, twice_in_udp), WORDS.len().pow(3) - WORDS.len());
    let zeros = count(drawn(4).filter(is_checksum_of_udp), twice_in_udp);
    assert!(zeros > 10_000, "{zeros}");
}

/// Law 2 for UDP; whether the checksum is FFFF, which returns as well.
fn there_and_back_in_udp(case: Case<2>) -> bool {
    let (checksum, [a, b]) = case;
    assert_eq!(edit_udp(edit_udp(checksum, a, b), b, a), checksum, "{case:04X?}");
    checksum == 0xFFFF
}

#[test]
fn udp_there_and_back_returns_the_checksum() {
    let edges = every_checksum(WORDS.len()).filter(is_checksum_of_udp);
    assert_eq!(count(edges, there_and_back_in_udp), WORDS.len().pow(2));
    let returned = count(drawn(5).filter(is_checksum_of_udp), there_and_back_in_udp);
    assert!(returned > 100_000, "{returned}");
}

/// Law 3 for UDP; whether the last edit comes to 0, which is written FFFF.
fn two_words_in_udp(case: Case<4>) -> bool {
    let (checksum, [a, b, c, d]) = case;
    let first = edit_udp(checksum, a, b);
    assert_eq!(edit_udp(first, c, d), edit_udp(edit_udp(checksum, c, d), a, b), "{case:04X?}");
    edit_word(first, c, d) == 0
}

#[test]
fn udp_two_different_words_may_come_in_either_order() {
    let edges = every_checksum(EDGES).filter(is_checksum_of_udp);
    // of each choice one checksum, but FFFF stays FFFF where c is FFFF and d is 0
    assert_eq!(count(edges, two_words_in_udp), EDGES.pow(4) - EDGES.pow(2));
    let zeros = count(drawn(6).filter(is_checksum_of_udp), two_words_in_udp);
    assert!(zeros > 10_000, "{zeros}");
}
