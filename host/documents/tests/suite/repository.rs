//! The repository's files, and the parts of their lines.

use std::fmt::Display;
use std::fs;
use std::path::{Path, PathBuf};

/// A file, by its path from the repository's root.
pub struct File {
    pub path: String,
    pub text: String,
}

impl File {
    /// The lines, with their numbers, outside of fenced code.
    pub fn prose(&self) -> impl Iterator<Item = (usize, &str)> {
        let mut fenced = false;
        (1..).zip(self.text.lines()).filter(move |(_, line)| {
            let is_fence = line.starts_with("```");
            fenced ^= is_fence;
            !fenced && !is_fence
        })
    }

    /// The cells below headings that have this word, in all tables, with their lines.
    pub fn column(&self, word: &str) -> Vec<(usize, &str)> {
        let (mut found, mut headings) = (Vec::new(), vec![]);
        for (line, text) in self.prose() {
            let row = if text.starts_with('|') { cells(text) } else { vec![] };
            if headings.is_empty() || row.is_empty() {
                headings = row;
                continue;
            }
            let below = headings.iter().zip(row).filter(|(heading, _)| heading.contains(word));
            found.extend(below.map(|(_, cell)| (line, cell)));
        }
        found
    }
}

pub fn root() -> PathBuf {
    Path::new(env!("CARGO_MANIFEST_DIR")).join("../..")
}

pub fn read(path: &str) -> File {
    let text = fs::read_to_string(root().join(path)).unwrap_or_else(|e| panic!("{path}: {e}"));
    File { path: path.to_string(), text }
}

/// All files in a folder and the folders in it, without what cargo and `rt` make.
pub fn files_in(folder: &str) -> Vec<File> {
    let mut files = Vec::new();
    for entry in fs::read_dir(root().join(folder)).unwrap().map(Result::unwrap) {
        let path = format!("{folder}/{}", entry.file_name().to_str().unwrap());
        match entry.path().is_dir() {
            true if path.ends_with("/target") || path.ends_with("/out") => {}
            true => files.extend(files_in(&path)),
            false => files.push(read(&path)),
        }
    }
    files
}

/// The pages of docs/, and README.md.
pub fn pages() -> Vec<File> {
    files_in("docs").into_iter().chain([read("README.md")]).collect()
}

/// A line of .antt or .rt: its code and its comment.
pub fn code_and_comment(line: &str) -> (&str, &str) {
    line.split_once("-- ").or(line.split_once("// ")).unwrap_or((line, ""))
}

/// The cells of a table's row; a bar after a backslash parts none.
pub fn cells(row: &str) -> Vec<&str> {
    let row = row.trim_start_matches('|').trim_end();
    let mut before = ' ';
    let is_end = |c| std::mem::replace(&mut before, c) != '\\' && c == '|';
    row.strip_suffix('|').unwrap_or(row).split(is_end).map(str::trim).collect()
}

/// Fails with all that is wrong in these files, by line.
pub fn none_wrong<What: Display>(
    files: impl IntoIterator<Item = File>,
    wrong: impl Fn(&File) -> Vec<(usize, What)>,
) {
    let mut faults = Vec::new();
    for file in files {
        let told = |(line, what)| format!("{}:{line}: {what}\n", file.path);
        faults.extend(wrong(&file).into_iter().map(told));
    }
    assert!(faults.is_empty(), "{} wrong\n{}", faults.len(), faults.concat());
}
