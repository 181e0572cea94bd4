//! What the tests make pages of: the examples, and rules with the sizes that no example has.

#![allow(dead_code)] // each test uses a part

use desk::case::Case;
use solver::large::LARGE;
use std::fs;
use std::path::{Path, PathBuf};

/// A page to make: the name of the station file, its bytes, and its case.
pub struct Subject {
    pub name: String,
    pub file: Vec<u8>,
    pub case: Case,
}

/// The station files of a folder, in order.
fn files(folder: &str) -> Vec<Subject> {
    let folder = Path::new(env!("CARGO_MANIFEST_DIR")).join(folder);
    let all = fs::read_dir(folder).unwrap().map(|entry| entry.unwrap().path());
    let mut paths: Vec<PathBuf> =
        all.filter(|path| path.extension().is_some_and(|ending| ending == "station")).collect();
    paths.sort();
    paths.iter().map(|path| subject(&path.file_name().unwrap().to_string_lossy(), fs::read(path).unwrap())).collect()
}

/// Every station file of the examples.
pub fn examples() -> Vec<Subject> {
    let found = files("../examples");
    assert!(found.len() >= 12, "the examples are there");
    found
}

/// Station files whose pages say what no example's does.
pub fn stations() -> Vec<Subject> {
    files("tests/stations")
}

/// The subject of a station file.
fn subject(name: &str, file: Vec<u8>) -> Subject {
    let case = Case::of(&file).unwrap_or_else(|fault| panic!("{}", fault.shown(name, &file)));
    Subject { name: name.into(), file, case }
}

/// Rules that fill every bound or leave a side without wires, and both modes with promises that always hold.
pub fn sizes() -> Vec<Subject> {
    let texts = [
        "1 0\nfair\na\nF(a&Xa)\n",
        "0 1\nfair\n1\np&Xp\n",
        "0 0\nstable\n1\nXX1\n",
        "1 0\nstable\na\nFa & F!a\n",
        "0 2\nfair\n1\nFp & G!p\n",
        "2 2\nstable\n1\nXX(a&p)\n",
        "4 4\nstable\na&b&c&d\nX(Xd&Xq)\n",
    ];
    let mut subjects: Vec<Subject> = texts.iter().map(|text| of_lines(text)).collect();
    let largest = [0, 7, 15].map(|place| LARGE[place]).into_iter();
    subjects.extend(largest.map(|(_, inputs, outputs, rule)| {
        let rule = String::from_utf8_lossy(rule);
        of_lines(&format!("{inputs} {outputs}\nstable\n!a\n{rule}\n"))
    }));
    subjects
}

/// The subject of four lines: their station file has names, notes and sentences that need care in a page.
pub fn of_lines(text: &str) -> Subject {
    let lines: Vec<&str> = text.lines().collect();
    let [alphabet, mode, condition, rule] = lines[..] else { panic!("four lines") };
    let (inputs, outputs) = alphabet.split_once(' ').unwrap();
    let mut file = String::from("# A station <made> up & by hand\noutside the <outside> & the network\n");
    if inputs != "1" {
        file += "goal the \"break\" <has> aired & the feed is back\n";
    }
    for (word, name, count) in [("input", "in", inputs), ("output", "out", outputs)] {
        for place in 0..count.parse().unwrap() {
            let note = ["", "a \"note\" with </script> & <b>", "Meldekontakt für „auf Sendung“"][place % 3];
            file += &format!("{word} {name}{place} {note}\n");
        }
    }
    file += &format!("promise {mode} {}\nrule {}\n", in_names(condition), in_names(rule));
    let subject = subject(&lines.join(" "), file.into_bytes());
    assert_eq!(subject.case.question.lines(), text.replace(" & ", "&"));
    subject
}

/// A text of the engine in the names of `of_lines`.
fn in_names(text: &str) -> String {
    let mark = |c: char| match c {
        'a'..='d' => format!(" in{} ", c as u8 - b'a'),
        'p'..='s' => format!(" out{} ", c as u8 - b'p'),
        c => format!("{c} "),
    };
    text.chars().map(mark).collect()
}
