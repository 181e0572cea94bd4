//! The page: a report for the authority, with the simulator in it. It has no word from outside itself.

use crate::case::Case;
use crate::hash::sha256;
use crate::html::escaped;
use crate::sentences::{self, capital, Style};
use crate::simulator;

pub mod ending;
mod losing;
mod question;
mod tables;
mod verdict;

/// The script and the style of the page.
const STYLE: &str = include_str!("report.css");

/// The library that this program is linked with.
const LIBRARY: &[u8] = include_bytes!(env!("CAPI_LIB"));

/// The version of the sources that this program is built from.
const SOURCES: &str = env!("SOURCES");

/// The toolchain that made it.
const TOOLCHAIN: &str = env!("TOOLCHAIN");

/// The SHA-256 of the library.
pub fn library_hash() -> String {
    sha256(LIBRARY)
}

/// A text in the page's letters for code.
fn code(text: &str) -> String {
    format!("<code>{}</code>", escaped(text))
}

/// The answer in a sentence.
fn answer(case: &Case) -> String {
    sentences::verdict(case, &Style { text: escaped, code })
}

/// A section under its heading.
fn section(id: &str, heading: &str, body: &str) -> String {
    format!("<section id=\"{id}\">\n<h2>{heading}</h2>\n{body}</section>\n")
}

/// A row of a table, its cells in HTML.
fn row(cells: &[&str]) -> String {
    let cells: String = cells.iter().map(|cell| format!("<td>{cell}</td>")).collect();
    format!("<tr>{cells}</tr>\n")
}

/// Rows of which the first cells are the same: they stand once, beside all of them.
fn rows_beside(first: &[&str], rest: &[Vec<String>]) -> String {
    let span = format!("<td rowspan=\"{}\">", rest.len());
    let first: String = first.iter().map(|cell| format!("{span}{cell}</td>")).collect();
    let cells = |cells: &Vec<String>| cells.iter().map(|cell| format!("<td>{cell}</td>")).collect::<String>();
    let row =
        |(k, row): (usize, &Vec<String>)| format!("<tr>{}{}</tr>\n", if k == 0 { &*first } else { "" }, cells(row));
    rest.iter().enumerate().map(row).collect()
}

/// A table of rows under its heads.
fn table(heads: &[&str], rows: &str) -> String {
    let heads: String = heads.iter().map(|head| format!("<th scope=\"col\">{head}</th>")).collect();
    format!("<div class=\"wide\"><table>\n<thead><tr>{heads}</tr></thead>\n<tbody>\n{rows}</tbody>\n</table></div>\n")
}

/// What the station file is called: its name, or - for standard input.
fn called(name: &str) -> &str {
    match name {
        "-" => "standard input",
        name => name,
    }
}

/// The heading of the page: the file's title, or else its name.
fn title(case: &Case, name: &str) -> String {
    case.station.title.first().map_or(called(name).into(), |line| capital(line))
}

/// The page's head. The policy keeps the browser from asking anything of a network.
fn head(case: &Case, name: &str) -> String {
    let policy = "default-src 'none'; style-src 'unsafe-inline'; script-src 'unsafe-inline'";
    format!(
        "<!DOCTYPE html>\n<html lang=\"en\">\n<head>\n<meta charset=\"utf-8\">\n\
         <meta http-equiv=\"Content-Security-Policy\" content=\"{policy}\">\n\
         <meta name=\"viewport\" content=\"width=device-width, initial-scale=1\">\n\
         <title>{}</title>\n<style>\n{STYLE}{}</style>\n</head>\n",
        escaped(&title(case, name)),
        simulator::STYLE
    )
}

/// What stands above the first section.
fn top(case: &Case, name: &str) -> String {
    let more = case.station.title.iter().skip(1).map(|line| escaped(line)).collect::<Vec<_>>().join(" ");
    let more = if more.is_empty() { more } else { format!("<p>{more}</p>\n") };
    let answer = answer(case);
    let rests_on = sentences::rests_on(case, &Style { text: escaped, code });
    let rests_on = rests_on.map_or(String::new(), |text| format!("<p>{text}</p>\n"));
    let class = if case.answer.can { "can" } else { "cannot" };
    format!(
        "<header>\n<p class=\"kind\">Report on {}, of the rule engine airtable. The engine's answer is proved; this page, which shows it, \
         is a presentation and is not (section {}).</p>\n<h1>{}</h1>\n{more}<p class=\"answer {class}\">{answer}</p>\n{rests_on}</header>\n",
        code(called(name)),
        tables::last(case) - 1,
        escaped(&title(case, name))
    )
}

/// The page of a case: `name` (- for standard input) and `file` are the station file's, `dot` is Graphviz's program where there is one.
pub fn page(case: &Case, name: &str, file: &[u8], dot: Option<&str>) -> String {
    let sections = [
        question::asked(case),
        question::wires(case),
        question::texts(case),
        verdict::promised(case),
        tables::by_states(case),
        tables::drawing(case, dot),
        simulator::section(case),
        ending::open(case),
        if case.answer.can { String::new() } else { losing::play(case) + &losing::others(case) },
        ending::assumed(case),
        ending::repeated(case, name, file),
    ];
    format!(
        "{}<body>\n{}<main>\n{}</main>\n<script>\n{}</script>\n</body>\n</html>\n",
        head(case, name),
        top(case, name),
        sections.concat(),
        simulator::SCRIPT
    )
}
