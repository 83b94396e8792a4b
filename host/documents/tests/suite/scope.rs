//! docs/SCOPE.md as numbered passages, and the citations of them.

use crate::repository::File;

pub const SCOPE: &str = "docs/SCOPE.md";

/// What begins the lines of comments in Rattle, Rust and C.
const COMMENT_MARKS: [&str; 5] = ["--", "//", "///", "//!", "*"];

/// A rule, an example or a section, under the name by which it is cited: `4.12`, `P4`, `section 4`.
/// `Rule 4.6 in full: ..` is one too, beside the row of 4.6.
pub struct Passage {
    pub line: usize,
    pub name: String,
    pub text: String,
}

pub fn passages(scope: &File) -> Vec<Passage> {
    let (lines, mut found) = (scope.text.lines().collect::<Vec<_>>(), Vec::new());
    for (i, line) in lines.iter().enumerate() {
        let Some(name) = name_begun(line) else { continue };
        let is_end = |line: &str| match name.starts_with("section") {
            true => line.starts_with("## "),
            false => line.is_empty() || name_begun(line).is_some(),
        };
        let length = lines[i + 1..].iter().take_while(|line| !is_end(line)).count();
        found.push(Passage { line: i + 1, name, text: lines[i..=i + length].join("\n") });
    }
    found
}

/// The name of the passage that begins with this line: a heading, a list's item, a table's row.
fn name_begun(line: &str) -> Option<String> {
    if let Some(heading) = line.strip_prefix("## ") {
        return Some(format!("section {}", heading.split(' ').next()?));
    }
    let rest = ["- **", "| **", "Rule "].iter().find_map(|mark| line.strip_prefix(mark))?;
    let name = rest.split([' ', '*']).next()?;
    is_rule_name(name).then(|| name.to_string())
}

/// Whether this is written as a rule's name (`4.12`) or an example's (`P4`, `E1`).
fn is_rule_name(word: &str) -> bool {
    let is_number = |part: &str| part.parse::<u32>().is_ok();
    match word.split_once('.') {
        Some((section, rule)) => is_number(section) && is_number(rule),
        None => word.strip_prefix(['P', 'E']).is_some_and(is_number),
    }
}

/// The names that a text cites after the word SCOPE, each with the line of that word.
pub fn citations(text: &str) -> Vec<(usize, String)> {
    let mut found = Vec::new();
    for (at, word) in text.match_indices("SCOPE") {
        let (before, rest) = (&text[..at], &text[at + word.len()..]);
        let names = if rest.starts_with([' ', '\n']) { names_first(rest) } else { vec![] };
        found.extend(names.into_iter().map(|name| (1 + before.matches('\n').count(), name)));
    }
    found
}

/// The names with which a text begins, parted by a comma, `to` or `and`.
pub fn names_first(text: &str) -> Vec<String> {
    let (mut names, mut before) = (Vec::<String>::new(), "");
    for word in text.split_whitespace().filter(|word| !COMMENT_MARKS.contains(word)) {
        let name = word.trim_matches(|c: char| !c.is_alphanumeric());
        if is_rule_name(name) || name.starts_with(|c: char| c.is_ascii_digit()) {
            let first = names.last().filter(|_| before == "to").cloned();
            names.extend(first.into_iter().flat_map(|first| between(&first, name)));
            let section = if before == "section" { "section " } else { "" };
            names.push(format!("{section}{name}"));
        } else if !["section", "to", "and"].contains(&word) {
            break;
        }
        if !word.trim_end_matches(',').ends_with(name) {
            break;
        }
        before = word;
    }
    names
}

/// The names between two of one section.
fn between(first: &str, last: &str) -> Vec<String> {
    let section = first.trim_end_matches(|c: char| c.is_ascii_digit());
    let number = |name: &str| name.strip_prefix(section)?.parse::<u32>().ok();
    let numbers = number(first).zip(number(last)).map_or(0..0, |(first, last)| first + 1..last);
    numbers.map(|number| format!("{section}{number}")).collect()
}

#[test]
fn a_citation_may_name_several_and_go_over_the_line() {
    let names = |text| citations(text).into_iter().map(|(_, name)| name).collect::<Vec<_>>();
    assert_eq!(names("(SCOPE 10.8, 10.9), 3 (4: SCOPE\n-- P4; 8.1)"), ["10.8", "10.9", "P4"]);
    assert_eq!(names("`SCOPE 4.6 to 4.8, section 9`"), ["4.6", "4.7", "4.8", "section 9"]);
}
