//! Edits in a row: of one word, there and back, of two words.

use reference::checksum::edit_word;
use std::fmt::Write;

/// An edit: the old word and the new one.
type Edit = (u16, u16);

/// The checksum after some edits, on a line of its own.
fn edited(text: &mut String, checksum: u16, edits: &[Edit]) {
    let left = edits.iter().fold(checksum, |left, &(old, new)| edit_word(left, old, new));
    writeln!(text, "  {left:04x}").unwrap();
}

fn one_word(text: &mut String) {
    text.push_str(
        "edits of one word: dd2f, where 5555 becomes 3285 and then 0000; where it becomes 0000 at once\n",
    );
    edited(text, 0xDD2F, &[(0x5555, 0x3285), (0x3285, 0x0000)]);
    edited(text, 0xDD2F, &[(0x5555, 0x0000)]);
    text.push_str(
        "edits of one word: ffff, where ffff becomes 1234 and then 0000; where it becomes 0000 at once\n",
    );
    edited(text, 0xFFFF, &[(0xFFFF, 0x1234), (0x1234, 0x0000)]);
    edited(text, 0xFFFF, &[(0xFFFF, 0x0000)]);
}

fn there_and_back(text: &mut String) {
    text.push_str("there and back: dd2f, then ffff, where 5555 becomes 3285 and then 5555\n");
    edited(text, 0xDD2F, &[(0x5555, 0x3285), (0x3285, 0x5555)]);
    edited(text, 0xFFFF, &[(0x5555, 0x3285), (0x3285, 0x5555)]);
}

fn two_words(text: &mut String) {
    text.push_str(
        "edits of two words: dd2f, where 5555 becomes 3285 and then cd7a becomes 1234; in the other order\n",
    );
    edited(text, 0xDD2F, &[(0x5555, 0x3285), (0xCD7A, 0x1234)]);
    edited(text, 0xDD2F, &[(0xCD7A, 0x1234), (0x5555, 0x3285)]);
    text.push_str(
        "edits of two words: ffff, where ffff becomes 0000 and then 1234 becomes 0000; in the other order\n",
    );
    edited(text, 0xFFFF, &[(0xFFFF, 0x0000), (0x1234, 0x0000)]);
    edited(text, 0xFFFF, &[(0x1234, 0x0000), (0xFFFF, 0x0000)]);
}

pub fn edits(text: &mut String) {
    one_word(text);
    there_and_back(text);
    two_words(text);
}
