//! The edits of docs/EDITING.md are right, by the second implementation and by the page's own function for bash.

use crate::repository::{cells, none_wrong, read, File};
use programs::BASH;
use reference::checksum::edit_word;

const PAGE: &str = "docs/EDITING.md";

/// The four words of a row: checksum, word, what it becomes, new checksum.
fn words(row: &str) -> Option<[u16; 4]> {
    let words: Vec<u16> =
        cells(row).iter().map_while(|cell| u16::from_str_radix(cell, 16).ok()).collect();
    words.try_into().ok()
}

/// The rows of its tables, with their lines.
fn edits(page: &File) -> Vec<(usize, [u16; 4])> {
    let edits: Vec<_> =
        page.prose().filter_map(|(line, text)| Some((line, words(text)?))).collect();
    let mut rows = page.column("becomes");
    rows.retain(|(_, cell)| !cell.starts_with('-'));
    assert!(!rows.is_empty() && rows.len() == edits.len(), "{PAGE}: a row is not of four words");
    edits
}

#[test]
fn its_edits_are_right() {
    none_wrong([read(PAGE)], |page| {
        let mut wrong = Vec::new();
        for (line, [checksum, word, becomes, new_checksum]) in edits(page) {
            let right = edit_word(checksum, word, becomes);
            wrong.extend((right != new_checksum).then(|| (line, format!("it is {right:04X}"))));
        }
        wrong
    });
}

#[test]
fn its_function_for_bash_gives_them() {
    let page = read(PAGE);
    let (_, function) = page.text.split_once("```bash\n").unwrap();
    let mut script = function.split("```").next().unwrap().to_string();
    let mut want = String::new();
    for (_, [checksum, word, becomes, new_checksum]) in edits(&page) {
        script += &format!("edit {checksum:04X} {word:04X} {becomes:04X}\n");
        want += &format!("{new_checksum:04X}\n");
    }
    let output = BASH.run(&["-euc", &script]);
    assert_eq!(String::from_utf8(output.stdout).unwrap(), want);
}
