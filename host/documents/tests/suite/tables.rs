//! Tables are whole, and their cells short enough to be read.

use crate::repository::{cells, none_wrong, pages};

fn is_separator(row: &str) -> bool {
    cells(row)
        .iter()
        .all(|cell| cell.len() > 2 && cell.trim_matches(':').replace('-', "").is_empty())
}

fn row_fault(header: &str, row: &str) -> Option<&'static str> {
    if cells(row).len() != cells(header).len() || !row.trim_end().ends_with('|') {
        return Some("not as many cells as the header, or no last bar");
    }
    let is_long = cells(row).iter().any(|cell| cell.chars().count() >= 300);
    is_long.then_some("a cell of 300 characters or more")
}

/// What is wrong with a table as a whole, told of the line below it.
fn table_fault(rows: &[&str], below: &str) -> Option<&'static str> {
    if rows.is_empty() {
        return None;
    }
    if rows.len() < 3 || !is_separator(rows[1]) {
        return Some("the table above lacks header, separator or rows, or has a blank line in it");
    }
    (!below.is_empty()).then_some("a line right below a table is taken for a row of it")
}

#[test]
fn tables_are_whole() {
    none_wrong(pages(), |page| {
        let (mut wrong, mut rows) = (Vec::new(), Vec::new());
        for (line, text) in page.prose().chain([(page.text.lines().count(), "")]) {
            if text.starts_with('|') {
                rows.push(text);
                wrong.extend(row_fault(rows[0], text).map(|fault| (line, fault)));
            } else {
                wrong.extend(table_fault(&rows, text).map(|fault| (line, fault)));
                rows.clear();
            }
        }
        wrong
    });
}

#[test]
fn a_row_is_parted_by_bars() {
    assert_eq!(cells("| a | `b \\| c` | |"), ["a", "`b \\| c`", ""]);
    assert!(is_separator("|---|:---:|") && !is_separator("| a | b |"));
}
