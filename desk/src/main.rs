//! The program behind ./airdesk: `airdesk report LAYOUT FILE PAGE`, `airdesk lines LAYOUT FILE` and `airdesk picture LAYOUT FILE`. LAYOUT is dot or
//! plain, FILE is - for standard input. Exit status: 0 answered, 1 refused, 2 a failed read or write.

use desk::case::Case;
use desk::odd::printable;
use desk::report::ending::warning;
use desk::{asking, formula, picture, play, report, sentences, station};
use std::ffi::{OsStr, OsString};
use std::fs::File;
use std::io::{Read, Write};
use std::os::fd::AsFd;
use std::os::unix::fs::MetadataExt;
use std::process::ExitCode;

/// The most bytes of a station file, and one more, so that a longer one is seen.
const LONGEST: u64 = station::LONGEST as u64 + 1;

/// The most promises that are printed.
const SHOWN: usize = 3;

/// What is said to one who calls the program by hand.
const WRONG_USE: &str = "this is the program behind the script ./airdesk, which calls it";

/// Why there is no answer.
enum Failure {
    /// The file or its rule is refused: the lines to print.
    Refused(String),
    /// A read or a write failed.
    Failed(String),
}

/// A file's name as it can be printed.
fn name(path: &OsStr) -> String {
    printable(&path.to_string_lossy())
}

/// Reads a file, or standard input.
fn read(path: &OsStr) -> Result<Vec<u8>, Failure> {
    let mut file = Vec::new();
    let done = if path == "-" {
        std::io::stdin().take(LONGEST).read_to_end(&mut file)
    } else {
        File::open(path).and_then(|opened| opened.take(LONGEST).read_to_end(&mut file))
    };
    match done {
        Ok(_) => Ok(file),
        Err(error) => Err(Failure::Failed(format!("cannot read {}: {}", called(path), reason(&error)))),
    }
}

/// The system's word for an error, without its number.
fn reason(error: &std::io::Error) -> String {
    let text = error.to_string();
    text.split(" (os error").next().unwrap_or_default().to_string()
}

/// What a station file is called in messages and in the page.
fn called(path: &OsStr) -> String {
    if path == "-" {
        "standard input".into()
    } else {
        name(path)
    }
}

/// Graphviz's program, unless a plain layout is asked for.
fn dot(plain: bool) -> Option<&'static str> {
    (!plain).then_some("dot")
}

/// Prints to standard output.
fn print(text: &str) -> Result<(), Failure> {
    let mut out = std::io::stdout();
    out.write_all(text.as_bytes())
        .and_then(|()| out.flush())
        .map_err(|error| Failure::Failed(format!("cannot write standard output: {}", reason(&error))))
}

/// The promises that do on "cannot", the weakest first.
fn others(case: &Case) -> Vec<String> {
    let other = asking::other(case);
    let mode = other.mode.iter().filter(|asked| asked.can);
    let promise = |asked: &asking::Asked| {
        let meets = formula::short(&asked.meets, &case.input_names());
        format!("It can with the promise: {}.\n", sentences::promise(asked.mode, &format!("`{meets}`")))
    };
    mode.chain(&other.narrower).map(promise).collect()
}

/// What the command prints of a case besides the verdict.
fn besides(case: &Case) -> String {
    let warning = warning(case).map_or(String::new(), |warning| format!("Mind this: {warning}\n"));
    if case.answer.can {
        return warning;
    }
    let mut lines = others(case);
    if lines.len() > SHOWN {
        let more = lines.len() - SHOWN;
        lines.truncate(SHOWN);
        lines.push(format!("And with {more} more, which stand in the report.\n"));
    }
    warning + &lines.concat()
}

/// Whether a page would be written over the file that is read, by this name or another.
fn is_read(path: &OsStr, out: &OsStr) -> bool {
    let read = if path == "-" {
        std::io::stdin().as_fd().try_clone_to_owned().and_then(|input| File::from(input).metadata())
    } else {
        std::fs::metadata(path)
    };
    match (read, std::fs::metadata(out)) {
        (Ok(read), Ok(out)) => read.is_file() && (read.dev(), read.ino()) == (out.dev(), out.ino()),
        _ => false,
    }
}

/// Writes the page and prints the answer.
fn page(case: &Case, path: &OsStr, file: &[u8], out: &OsStr, plain: bool) -> Result<(), Failure> {
    if out.to_string_lossy().ends_with(".station") {
        return Err(Failure::Failed(
            "a report is not written over a station file: its name must not end with .station".into(),
        ));
    }
    if is_read(path, out) {
        return Err(Failure::Failed("the report would overwrite the station file".into()));
    }
    std::fs::write(out, report::page(case, &name(path), file, dot(plain)))
        .map_err(|error| Failure::Failed(format!("cannot write {}: {}", name(out), reason(&error))))?;
    let style = sentences::Style { text: printable, code: |text| format!("`{text}`") };
    let rests_on = sentences::rests_on(case, &style).map_or(String::new(), |text| text + "\n");
    print(&format!("{}\n{rests_on}{}The report: {}\n", sentences::verdict(case, &style), besides(case), name(out)))
}

/// Prints the picture.
fn drawing(case: &Case, plain: bool) -> Result<(), Failure> {
    match picture::svg(&play::graph(case), dot(plain)) {
        Some(picture) => print(&picture.svg),
        None => Err(Failure::Failed(format!("more than {} states are too many for a picture", picture::MOST))),
    }
}

/// Does what the words ask.
fn run(words: &[OsString]) -> Result<(), Failure> {
    let [command, layout, path, rest @ ..] = words else { return Err(Failure::Failed(WRONG_USE.into())) };
    let plain = layout == "plain";
    let file = read(path)?;
    let case = Case::of(&file).map_err(|fault| Failure::Refused(fault.shown(&called(path), &file)))?;
    match (command.to_str(), rest) {
        (Some("report"), [out]) => page(&case, path, &file, out, plain),
        (Some("lines"), []) => print(&case.question.lines()),
        (Some("picture"), []) => drawing(&case, plain),
        _ => Err(Failure::Failed(WRONG_USE.into())),
    }
}

fn main() -> ExitCode {
    let words: Vec<OsString> = std::env::args_os().skip(1).collect();
    let (text, status) = match run(&words) {
        Ok(()) => return ExitCode::SUCCESS,
        Err(Failure::Refused(text)) => (text, 1),
        Err(Failure::Failed(text)) => (format!("{text}\n"), 2),
    };
    let _ = write!(std::io::stderr(), "airdesk: {text}");
    ExitCode::from(status)
}
