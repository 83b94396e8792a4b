//! Comments of the crates that quote a rule, `"its words" (SCOPE n)`, have its words.

use crate::repository::{code_and_comment, files_in, none_wrong, read, File};
use crate::scope::{citations, passages, Passage, SCOPE};

/// Where each quotation begins and ends; one within another is part of it.
/// Or the place of a mark that lacks its partner.
fn quotations(text: &str) -> Result<Vec<(usize, usize)>, usize> {
    let (mut found, mut begun, mut before) = (Vec::new(), Vec::new(), ' ');
    for (at, c) in text.char_indices() {
        if c == '"' && (before.is_whitespace() || before == '(') {
            begun.push(at + 1);
        } else if c == '"' {
            let begin = begun.pop().ok_or(at)?;
            found.extend(begun.is_empty().then_some((begin, at)));
        }
        before = c;
    }
    begun.first().map_or(Ok(found), |at| Err(*at))
}

/// What the brackets cite that stand right behind a quotation.
fn cited_behind(rest: &str) -> Vec<String> {
    let brackets = rest.trim_start().strip_prefix('(').and_then(|rest| rest.split(')').next());
    citations(brackets.unwrap_or("")).into_iter().map(|(_, name)| name).collect()
}

fn plain(text: &str) -> String {
    let text = text.replace(['`', '*'], "").to_lowercase();
    text.split_whitespace().collect::<Vec<_>>().join(" ")
}

/// Whether the text has the quotation's pieces in their order; ` ..` is what it leaves out.
fn says(text: &str, quotation: &str) -> bool {
    let mut pieces = quotation.split(" ..").map(|piece| piece.trim_matches([' ', '.', ';', ',']));
    pieces.try_fold(text, |rest, piece| Some(rest.split_once(piece)?.1)).is_some()
}

fn wrong_in(file: &File, rules: &[Passage]) -> Vec<(usize, String)> {
    let comments: Vec<&str> = file.text.lines().map(|line| code_and_comment(line).1).collect();
    let text = comments.join("\n");
    let line = |at: usize| 1 + text[..at].matches('\n').count();
    let found = match quotations(&text) {
        Ok(found) => found,
        Err(at) => return vec![(line(at), "a quotation mark without its partner".to_string())],
    };
    let mut wrong = Vec::new();
    for (begin, end) in found {
        let (quotation, names) = (plain(&text[begin..end]), cited_behind(&text[end + 1..]));
        let mut cited = rules.iter().filter(|rule| names.contains(&rule.name));
        if !names.is_empty() && !cited.any(|rule| says(&plain(&rule.text), &quotation)) {
            let what = format!("SCOPE {} doesn't say \"{quotation}\"", names.join(", "));
            wrong.push((line(begin), what));
        }
    }
    wrong
}

#[test]
fn quoted_rules_say_so() {
    let (rules, mut sources) = (passages(&read(SCOPE)), files_in("crates"));
    sources.retain(|file| file.path.ends_with(".antt") || file.path.ends_with(".rt"));
    none_wrong(sources, |file| wrong_in(file, &rules));
}

#[test]
fn a_wrong_quotation_is_found() {
    let text = "-- a \"is\n-- \"b\" .. c.\" (SCOPE 9.15) \nd // \"is \"b\" .. e\" (4: SCOPE 9.15)";
    let file = File { path: String::new(), text: text.to_string() };
    let rule =
        Passage { line: 1, name: "9.15".to_string(), text: "It *is* `\"b\"`,\nor C".to_string() };
    let wrong = (3, "SCOPE 9.15 doesn't say \"is \"b\" .. e\"".to_string());
    assert_eq!(wrong_in(&file, &[rule]), [wrong]);
    assert_eq!(quotations("\"a"), Err(1));
}
