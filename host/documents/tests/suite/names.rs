//! What the documents name is in the crates: definitions, functions, types, must-fail edits.

use crate::repository::{code_and_comment, files_in, none_wrong, read, root, File};
use std::collections::HashSet;

const PAGES: [&str; 2] = ["docs/RULES.md", "docs/CONTRACTS.md"];

/// Stand for any file and any name, where RULES.md shows how it writes them.
const PLACEHOLDERS: [&str; 2] = ["File", "name"];

/// What stands in backticks.
fn code_spans(line: &str) -> impl Iterator<Item = &str> {
    line.split('`').skip(1).step_by(2)
}

fn words(text: &str) -> impl Iterator<Item = &str> {
    let words = text.split(|c: char| !c.is_alphanumeric() && c != '_' && c != '-');
    words.map(|word| word.trim_matches('-')).filter(|word| !word.is_empty())
}

/// The words of a file's code, comments left out.
fn code_words(file: &File) -> impl Iterator<Item = &str> {
    file.text.lines().flat_map(|line| words(code_and_comment(line).0))
}

fn is_crate(name: &&str) -> bool {
    root().join("crates").join(name).is_dir()
}

#[test]
fn named_things_are_there() {
    let files = files_in("crates");
    let mut known: HashSet<&str> = PLACEHOLDERS.into();
    files.iter().for_each(|file| known.extend(words(&file.path).chain(code_words(file))));
    none_wrong(PAGES.map(read), |page| {
        let mut wrong = Vec::new();
        for (line, text) in page.prose() {
            let unknown = code_spans(text).flat_map(words).filter(|name| !known.contains(*name));
            wrong.extend(unknown.map(|name| (line, format!("crates/ has no {name}"))));
        }
        wrong
    });
}

/// The names of a cell, `crate` `File`: `name`, with their files; a crate holds for what follows.
fn definitions_named(cell: &str) -> Vec<(String, &str)> {
    let (mut of, mut found) = ("", Vec::new());
    for part in cell.split("; ") {
        of = code_spans(part).find(is_crate).unwrap_or(of);
        let (place, names) = part.split_once("`: ").unwrap_or((part, ""));
        let file = code_spans(place).last().unwrap_or("");
        let path = format!("crates/{of}/specs/{file}.antt");
        found.extend(code_spans(names).map(|name| (path.clone(), name)));
    }
    found
}

#[test]
fn named_definitions_are_in_their_file() {
    let files = files_in("crates");
    let has = |path: &str, name: &str| {
        files.iter().any(|file| file.path == path && code_words(file).any(|word| word == name))
    };
    none_wrong([read("docs/RULES.md")], |page| {
        let mut wrong = Vec::new();
        for (line, cell) in page.column("definition") {
            let missing =
                definitions_named(cell).into_iter().filter(|(path, name)| !has(path, name));
            wrong.extend(missing.map(|(path, name)| (line, format!("{path} has no {name}"))));
        }
        wrong
    });
}

/// Whether one of these crates has a must-fail edit; or the director, where none is named.
fn has_edit(crates: &[&str], edit: &str) -> bool {
    let crates = if crates.is_empty() { &["director"] } else { crates };
    crates.iter().any(|of| root().join(format!("crates/{of}/must-fail/{edit}.edit")).exists())
}

#[test]
fn named_edits_are_in_their_crate() {
    none_wrong(PAGES.map(read), |page| {
        let mut wrong = Vec::new();
        for (line, cell) in page.column("edit") {
            let (crates, edits): (Vec<&str>, Vec<&str>) = code_spans(cell).partition(is_crate);
            let missing = edits.into_iter().filter(|edit| !has_edit(&crates, edit));
            wrong.extend(missing.map(|edit| (line, format!("no edit {edit} in its crate"))));
        }
        wrong
    });
}

#[test]
fn a_cell_names_definitions_by_crate_and_file() {
    let named = definitions_named("`table` `Find`; `Slots`: `isRow`; type `Slot`");
    assert_eq!(named, [("crates/table/specs/Slots.antt".to_string(), "isRow")]);
}
