//! The examples and vectors that the gate's program `vectors` runs, by the second implementation: the same text.

mod checksum;
mod editing;
mod renewal;
mod sums;
mod weights;
mod written;

use reference::checksum::edit_word;
use std::fmt::Write;
use written::Written;

fn checksums(text: &mut String) {
    text.push_str("RFC 1071: the sum of 0001 f203 f4f5 f6f7, and of the same bytes swapped\n");
    sums::summed(text, &[0x00, 0x01, 0xf2, 0x03, 0xf4, 0xf5, 0xf6, 0xf7]);
    sums::summed(text, &[0x01, 0x00, 0x03, 0xf2, 0xf5, 0xf4, 0xf7, 0xf6]);
    text.push_str("RFC 1624: the checksum dd2f, where 5555 becomes 3285\n");
    writeln!(text, "  {:04x}", edit_word(0xDD2F, 0x5555, 0x3285)).unwrap();
}

fn calls(text: &mut String) {
    text.push_str("one slot: setup, a client, a second; all weights 0, the second again\n");
    let mut director = Written::one_server(text, 5);
    director.syn_with_offset(40001, 5, 1);
    director.syn_with_offset(40002, 5, 2);
    director.set_weight(0, 0);
    director.syn_with_offset(40002, 5, 3);
    text.push_str("ticks at 51, 50, 51\n");
    let mut director = Written::one_server(text, 5);
    for clock in [51, 50, 51] {
        director.tick(clock);
    }
    text.push_str("20 payload bytes: data offset 5, then 6\n");
    let mut director = Written::one_server(text, 10);
    director.syn_with_offset(40001, 5, 1);
    director.syn_with_offset(40002, 6, 1);
    text.push_str("rows of 20480 and of 20485 words\n");
    Written::one_server(text, 20480);
    Written::one_server(text, 20485);
}

#[test]
fn the_second_implementation_writes_what_the_gate_stores() {
    let mut text = String::new();
    checksums(&mut text);
    sums::sums(&mut text);
    editing::edits(&mut text);
    calls(&mut text);
    renewal::renewals(&mut text);
    checksum::header_checksums(&mut text);
    weights::largest_and_divisor(&mut text);
    assert_eq!(text, include_str!("../../../../crates/vectors/stdout"));
}
