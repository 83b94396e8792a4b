//! Links within the repository lead to a file, and to a heading of it.

use crate::repository::{none_wrong, pages, read, root, File};
use std::path::Path;

/// A heading's anchor, as GitHub makes it.
fn anchor(heading: &str) -> String {
    let heading = heading.trim_start_matches('#').trim().to_lowercase();
    let kept = heading.chars().filter(|c| c.is_alphanumeric() || " -_".contains(*c));
    kept.collect::<String>().replace(' ', "-")
}

/// What is wrong with a link of this page, if anything is.
fn link_fault(page: &File, link: &str) -> Option<String> {
    let (path, heading) = link.split_once('#').unwrap_or((link, ""));
    let beside = Path::new(&page.path).parent().unwrap().join(path);
    let target = if path.is_empty() { &page.path } else { beside.to_str().unwrap() };
    if !root().join(target).exists() {
        return Some(format!("{link}: no such file"));
    }
    let is_it = |line: &str| line.starts_with('#') && anchor(line) == heading;
    let is_there = heading.is_empty() || read(target).prose().any(|(_, line)| is_it(line));
    (!is_there).then(|| format!("{link}: no such heading"))
}

#[test]
fn links_lead_somewhere() {
    none_wrong(pages(), |page| {
        let mut wrong = Vec::new();
        for (line, text) in page.prose() {
            let links = text.split("](").skip(1).filter_map(|rest| rest.split(')').next());
            let inner = links.filter(|link| !link.contains("://"));
            wrong.extend(inner.filter_map(|link| Some((line, link_fault(page, link)?))));
        }
        wrong
    });
}

#[test]
fn an_anchor_keeps_letters_digits_and_dashes() {
    assert_eq!(anchor("## [1] What `./test` costs, A_b-c"), "1-what-test-costs-a_b-c");
}
