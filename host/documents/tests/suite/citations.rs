//! Every number that is cited is one of docs/SCOPE.md, and docs/RULES.md has a row for each rule.

use crate::repository::{files_in, none_wrong, pages, read, File};
use crate::scope::{citations, names_first, passages, SCOPE};

/// How names begin that need no row: docs/RULES.md goes through sections 9 and 11 in prose.
const WITHOUT_ROW: [&str; 4] = ["9.", "P", "E", "section"];

/// The names in the columns headed SCOPE.
fn in_columns(page: &File) -> Vec<(usize, String)> {
    let cells = page.column("SCOPE").into_iter();
    cells
        .flat_map(|(line, cell)| names_first(cell).into_iter().map(move |name| (line, name)))
        .collect()
}

#[test]
fn cited_rules_are_there() {
    let rules = passages(&read(SCOPE));
    let sources = ["crates", "examples", "host", "include", "rig"].into_iter().flat_map(files_in);
    none_wrong(sources.chain(pages()), |file| {
        let cited = citations(&file.text).into_iter().chain(in_columns(file));
        let unknown = cited.filter(|(_, name)| rules.iter().all(|rule| rule.name != *name));
        unknown.map(|(line, name)| (line, format!("{SCOPE} has no {name}"))).collect()
    });
}

#[test]
fn a_number_stands_once() {
    none_wrong([read(SCOPE)], |scope| {
        let mut rules = passages(scope);
        rules.retain(|rule| !rule.text.starts_with("Rule "));
        let is_second = |i: &usize| rules[..*i].iter().any(|rule| rule.name == rules[*i].name);
        let second = (0..rules.len()).filter(is_second).map(|i| &rules[i]);
        second.map(|rule| (rule.line, format!("a second {}", rule.name))).collect()
    });
}

#[test]
fn every_rule_has_a_row() {
    let rows = in_columns(&read("docs/RULES.md"));
    none_wrong([read(SCOPE)], |scope| {
        let mut rules = passages(scope);
        rules.retain(|rule| !WITHOUT_ROW.iter().any(|start| rule.name.starts_with(start)));
        rules.retain(|rule| rows.iter().all(|(_, name)| *name != rule.name));
        let told = |name| format!("docs/RULES.md has no row for {name}");
        rules.into_iter().map(|rule| (rule.line, told(rule.name))).collect()
    });
}
