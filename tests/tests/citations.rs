//! docs/PROMISES.md, docs/THEORY.md and docs/DECISIONS.md cite definitions and theorems by the letter of a crate
//! and a file, and must-fail edits by crate and name. What they cite is there, and every edit is cited.
//! What an edit replaces stands once in its file.

use std::collections::BTreeSet;
use std::fs;
use std::path::{Path, PathBuf};

const CRATES: [(char, &str); 7] = [
    ('R', "reader"),
    ('M', "machine"),
    ('A', "automaton"),
    ('P', "plays"),
    ('G', "game"),
    ('L', "listing"),
    ('C', "capi"),
];

fn root() -> PathBuf {
    Path::new(env!("CARGO_MANIFEST_DIR")).join("..")
}

/// The names of a text of definitions or of a cited expression.
fn names(text: &str) -> BTreeSet<&str> {
    let ends = |c: char| c.is_whitespace() || "(){}[],;.:`'\"⌜⌝«»".contains(c);
    text.split(ends).filter(|name| !name.is_empty()).collect()
}

/// The names that a source defines: what stands before the colon of a signature, a field or a constructor, and records and data.
fn defined(source: &str) -> BTreeSet<&str> {
    let mut found = BTreeSet::new();
    for line in source.lines().map(|line| line.split("--").next().unwrap().trim()) {
        let mut words = line.split(' ').peekable();
        let mut kind = false;
        while let Some(word @ ("pub" | "abbrev" | "unfoldable" | "record" | "data")) = words.peek().copied() {
            kind |= word == "record" || word == "data";
            words.next();
        }
        let words: Vec<&str> = words.collect();
        match words.iter().position(|word| *word == ":") {
            _ if kind => found.extend(words.first()),
            Some(end) if !words[..end].iter().any(|word| word.contains(['(', '{', '='])) => found.extend(&words[..end]),
            _ => (),
        }
    }
    found
}

/// The file that a citation such as ` G/Rule`, ` G/inner/Rounds` or ` G proofs/Laws` names at the beginning of a text.
fn file_at(text: &str) -> Option<PathBuf> {
    let mut rest = text.trim_start_matches([' ', '(']).chars();
    let letter = rest.next()?;
    let name = CRATES.iter().find(|(known, _)| *known == letter)?.1;
    let rest = rest.as_str();
    let (folder, rest) = match (rest.strip_prefix('/'), rest.strip_prefix(" proofs/")) {
        (Some(rest), _) => ("specs", rest),
        (_, Some(rest)) => ("proofs", rest),
        _ => return None,
    };
    let path = rest.split(|c: char| !c.is_ascii_alphabetic() && c != '/').next()?;
    let file = format!("crates/{name}/{folder}/{}.antt", path.trim_end_matches('/'));
    Some(root().join(file))
}

/// Each text in backticks of a line, with the file that is cited behind it or behind a list that it stands in.
fn citations(line: &str) -> Vec<(&str, PathBuf)> {
    let parts: Vec<&str> = line.split('`').collect();
    let mut found = Vec::new();
    let mut file = None;
    for k in (1..parts.len()).rev().filter(|k| k % 2 == 1) {
        let behind = parts.get(k + 1).copied().unwrap_or("");
        if ![", ", " and ", " or ", "; "].contains(&behind) {
            file = file_at(behind);
        }
        found.extend(file.clone().map(|file| (parts[k], file)));
    }
    found
}

/// What a line cites and what is not there.
fn missing(line: &str) -> Vec<String> {
    let mut wrong = Vec::new();
    for (cited, file) in citations(line) {
        let source = fs::read_to_string(&file).unwrap_or_default();
        let known = defined(&source);
        let variables = ["λ", "v", "j"];
        let absent = |name: &&str| !known.contains(name) && !variables.contains(name) && name.parse::<u64>().is_err();
        if names(cited).iter().any(absent) {
            wrong.push(format!("`{cited}` in {}", file.display()));
        }
    }
    wrong
}

/// The must-fail edits, as crate and name.
fn edits() -> BTreeSet<String> {
    let mut found = BTreeSet::new();
    for folder in fs::read_dir(root().join("crates")).unwrap().map(|entry| entry.unwrap().path()) {
        let crate_name = folder.file_name().unwrap().to_str().unwrap().to_string();
        for file in fs::read_dir(folder.join("must-fail")).into_iter().flatten() {
            let file = file.unwrap().file_name().into_string().unwrap();
            found.insert(format!("{crate_name}/{}", file.strip_suffix(".edit").unwrap()));
        }
    }
    found
}

/// The texts that an edit replaces, each with how often it stands in its file.
fn replaced(edit: &str) -> Vec<(String, usize)> {
    let (crate_name, name) = edit.split_once('/').unwrap();
    let folder = root().join("crates").join(crate_name);
    let (mut source, mut found) = (String::new(), Vec::new());
    for line in fs::read_to_string(folder.join(format!("must-fail/{name}.edit"))).unwrap().lines() {
        if let Some(file) = line.strip_prefix("file: ") {
            source = fs::read_to_string(folder.join(file)).unwrap();
        } else if let Some(old) = line.strip_prefix("old: ") {
            found.push((old.to_string(), source.matches(old).count()));
        }
    }
    found
}

/// The texts in backticks that are a crate's name, a slash and a word.
fn cited_edits(text: &str) -> BTreeSet<String> {
    let is_crate = |name: &str| root().join("crates").join(name).join("must-fail").is_dir();
    let words = text.split('`').filter(|word| word.split_once('/').is_some_and(|(name, _)| is_crate(name)));
    words.map(str::to_string).collect()
}

#[test]
fn what_the_documents_cite_is_there() {
    let mut count = 0;
    for document in ["PROMISES", "THEORY", "DECISIONS"] {
        let text = fs::read_to_string(root().join(format!("docs/{document}.md"))).unwrap();
        for (number, line) in text.lines().enumerate() {
            assert_eq!(missing(line), Vec::<String>::new(), "docs/{document}.md:{}", number + 1);
            count += citations(line).len();
        }
    }
    assert!(count > 300, "{count}");
}

#[test]
fn the_edits_are_those_that_are_cited() {
    let text = fs::read_to_string(root().join("docs/PROMISES.md")).unwrap();
    assert_eq!(cited_edits(&text), edits());
}

#[test]
fn what_an_edit_replaces_stands_once() {
    for edit in edits() {
        let texts = replaced(&edit);
        assert!(!texts.is_empty() && texts.iter().all(|&(_, count)| count == 1), "{edit}: {texts:?}");
    }
}

#[test]
fn a_wrong_citation_is_seen() {
    assert_eq!(missing("`move`, `walk` M/Automaton").len(), 0);
    assert_eq!(missing("`Automaton.meaning` M/Automaton").len(), 0);
    assert_eq!(missing("`run` M/Automaton").len(), 1);
    assert_eq!(missing("`walked` M/Automaton").len(), 1);
    assert_eq!(missing("`walk`, `walked` M/Automaton").len(), 1);
    assert_eq!(missing("`walk` M/NoSuchFile").len(), 1);
    assert_eq!(missing("`walk` M proofs/Automaton").len(), 1);
    assert!(citations("`walk` of the automaton").is_empty());
}
