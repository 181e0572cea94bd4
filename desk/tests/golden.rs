//! The words of each example's page, and of some others, whole: what a reader sees but for the picture and the simulator's play, a line for each paragraph, row and
//! item. They stand in tests/golden/. With DESK_GOLDEN=write in the environment they are written anew, to be read before they are kept.

mod cases;

use desk::report::page;
use std::fs;

/// Elements that are left out with all that is in them.
const LEFT_OUT: [&str; 4] = ["head", "svg", "script", "textarea"];

/// Elements that stand within a line.
const INLINE: [&str; 12] = ["b", "strong", "em", "code", "span", "kbd", "td", "th", "dt", "dd", "label", "button"];

/// A text with its entities read.
fn read(text: &str) -> String {
    text.replace("&lt;", "<").replace("&gt;", ">").replace("&quot;", "\"").replace("&amp;", "&")
}

/// The words of a page.
fn words(page: &str) -> String {
    let mut text = String::new();
    let mut rest = page;
    while let Some((before, after)) = rest.split_once('<') {
        text += &read(before);
        let (tag, after) = after.split_once('>').unwrap();
        let name = tag.trim_start_matches('/').split(' ').next().unwrap();
        rest = after;
        if LEFT_OUT.contains(&name) && !tag.starts_with('/') {
            rest = rest.split_once(&format!("</{name}>")).unwrap().1;
        } else if ["/td", "/th", "/dt"].contains(&tag) {
            text += " | ";
        } else if name.starts_with('h') && tag == name {
            text += &format!("\n{} ", "#".repeat(name[1..].parse().unwrap_or(0)));
        } else if !INLINE.contains(&name) {
            text.push('\n');
        }
    }
    let lines = text.lines().map(|line| line.trim_matches([' ', '|'])).filter(|line| !line.is_empty());
    let fixed =
        lines.filter(|line| !["Library |", "Toolchain |", "Built from |"].iter().any(|head| line.starts_with(head)));
    fixed.map(|line| format!("{line}\n")).collect()
}

#[test]
fn pages_say() {
    let folder = concat!(env!("CARGO_MANIFEST_DIR"), "/tests/golden");
    let subjects: Vec<cases::Subject> = cases::examples().into_iter().chain(cases::stations()).collect();
    for subject in &subjects {
        let path = format!("{folder}/{}.txt", subject.name.strip_suffix(".station").unwrap());
        let found = words(&page(&subject.case, &subject.name, &subject.file, None));
        if std::env::var("DESK_GOLDEN").is_ok_and(|what| what == "write") {
            fs::write(&path, &found).unwrap();
        }
        let expected = fs::read_to_string(&path).unwrap_or_else(|error| panic!("{path}: {error}"));
        let pairs = found.lines().zip(expected.lines());
        if let Some((found, expected)) = pairs.into_iter().find(|(found, expected)| found != expected) {
            panic!("{}: the page says\n{found}\nand not\n{expected}", subject.name);
        }
        assert_eq!(found.lines().count(), expected.lines().count(), "{}", subject.name);
    }
    assert_eq!(fs::read_dir(folder).unwrap().count(), subjects.len());
}
