//! The station files in examples/: each is translated to the rule file of its name.

use desk::case::Case;
use std::path::{Path, PathBuf};

/// The files of examples/ with an extension.
fn examples(extension: &str) -> Vec<PathBuf> {
    let folder = Path::new(env!("CARGO_MANIFEST_DIR")).join("../examples");
    let files = std::fs::read_dir(folder).unwrap().map(|entry| entry.unwrap().path());
    let mut list: Vec<PathBuf> = files.filter(|path| path.extension().is_some_and(|end| end == extension)).collect();
    list.sort();
    list
}

/// The four lines of a rule file, the last two without blanks.
fn plain_lines(file: &str) -> String {
    let plain = |(k, line): (usize, &str)| if k < 2 { line.to_string() } else { line.replace(' ', "") };
    file.lines().enumerate().map(plain).map(|line| line + "\n").collect()
}

#[test]
fn translated_to_the_rule_files() {
    let rules = examples("rule");
    let stations: Vec<PathBuf> = rules.iter().map(|path| path.with_extension("station")).collect();
    assert_eq!(rules.len(), 12);
    assert_eq!(examples("station"), stations);
    for (rule, station) in rules.iter().zip(&stations) {
        let file = std::fs::read(station).unwrap();
        let case =
            Case::of(&file).unwrap_or_else(|fault| panic!("{}", fault.shown(&station.display().to_string(), &file)));
        assert_eq!(
            case.question.lines(),
            plain_lines(&std::fs::read_to_string(rule).unwrap()),
            "{}",
            station.display()
        );
        assert!(!case.station.title.is_empty(), "{}: no title", station.display());
        let wires = case.station.inputs.iter().chain(&case.station.outputs);
        assert!(wires.clone().all(|wire| !wire.note.is_empty()), "{}: no description", station.display());
    }
}
