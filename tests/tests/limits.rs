//! docs/DECISIONS.md, "Limits": each limit stands once in the code and once in the definitions of the crates, under
//! the same name, and everywhere else it is cited or follows by an expression.

use std::fs;
use std::path::{Path, PathBuf};

/// A number, and where it stands: a file of the crates and the name that it has there.
type Row = (&'static str, &'static str, &'static str);

/// The numbers below that are limits, or follow from one, and where they stand.
const LIMITS: &[Row] = &[
    ("128", "automaton/specs/Limits.antt", "state_limit"),
    ("128", "automaton/src/limits.rt", "STATE_LIMIT"),
    ("2048", "listing/specs/Input.antt", "input_limit"),
    ("2048", "listing/src/limits.rt", "INPUT_LIMIT"),
    ("255", "game/specs/Tables.antt", "no_move"),
    ("255", "game/src/limits.rt", "NO_MOVE"),
    ("255", "reader/specs/Limits.antt", "text_limit"),
    ("255", "reader/src/limits.rt", "TEXT_LIMIT"),
    // no limit: how many numbers a byte has
    ("256", "game/src/tables.rt", "requires"),
    ("64", "automaton/specs/inner/Sizes.antt", "word_bits"),
    ("64", "automaton/src/bits.rt", "WORD_BITS"),
    ("64", "reader/specs/Limits.antt", "node_limit"),
    ("64", "reader/src/limits.rt", "NODE_LIMIT"),
    ("8192", "listing/specs/Promise.antt", "output_size"),
    ("8192", "listing/src/limits.rt", "OUTPUT_SIZE"),
];

/// The numbers that are looked for: limits, one more, and sizes that follow from them; 4 and 5 have too many meanings to be looked for.
const NUMBERS: [&str; 12] = ["64", "65", "128", "129", "255", "256", "257", "2048", "2049", "8192", "32768", "65536"];

/// The files of definitions and of code, below crates/.
fn files(folder: &Path, found: &mut Vec<PathBuf>) {
    for path in fs::read_dir(folder).unwrap().map(|entry| entry.unwrap().path()) {
        if path.is_dir() {
            files(&path, found);
        } else if path.extension().is_some_and(|end| end == "antt" || end == "rt") {
            found.push(path);
        }
    }
}

/// The numbers of a line that are looked for, its comment and the width of a machine word left out.
fn numbers(line: &str) -> Vec<&str> {
    let code = line.split("//").next().unwrap().split("--").next().unwrap();
    let words = code.split(|c: char| !c.is_alphanumeric() && c != '_').filter(|word| !word.is_empty());
    let width = code.contains("2 ^ 64");
    words.filter(|word| NUMBERS.contains(word) && !(width && *word == "64")).collect()
}

/// Each such number of a source, with the name that its line gives it.
fn named(source: &str) -> Vec<(&str, &str)> {
    let mut found = Vec::new();
    for line in source.lines() {
        let text =
            line.trim_start().trim_start_matches("pub(crate) ").trim_start_matches("pub ").trim_start_matches("const ");
        let end = text.find(|c: char| !c.is_alphanumeric() && c != '_').unwrap_or(text.len());
        found.extend(numbers(line).into_iter().map(|number| (number, &text[..end])));
    }
    found
}

#[test]
fn each_limit_stands_once() {
    let crates = Path::new(env!("CARGO_MANIFEST_DIR")).join("../crates");
    let mut found: Vec<(String, String, String)> = Vec::new();
    for folder in fs::read_dir(&crates).unwrap().map(|entry| entry.unwrap().path()) {
        let mut paths = Vec::new();
        for part in ["specs", "src"].map(|part| folder.join(part)).iter().filter(|part| part.is_dir()) {
            files(part, &mut paths);
        }
        for path in paths {
            let file = path.strip_prefix(&crates).unwrap().to_str().unwrap().to_string();
            let source = fs::read_to_string(&path).unwrap();
            found.extend(
                named(&source).iter().map(|(number, name)| (number.to_string(), file.clone(), name.to_string())),
            );
        }
    }
    found.sort();
    let expected: Vec<_> =
        LIMITS.iter().map(|(number, file, name)| (number.to_string(), file.to_string(), name.to_string())).collect();
    assert_eq!(found, expected);
}

#[test]
fn a_literal_is_seen() {
    assert_eq!(named("    if 128 < n { // 64\n"), [("128", "if")]);
    assert_eq!(named("pub const STATE_LIMIT: usize = 128;\n"), [("128", "STATE_LIMIT")]);
    assert_eq!(named("state_limit = 128 -- and 64\n"), [("128", "state_limit")]);
    assert!(named("    requires { depth < 2 ^ 64 }\n").is_empty());
}
