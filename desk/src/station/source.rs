//! The file's lines, and a line with a caret under a place.

use super::Fault;
use crate::odd::is_odd;

/// The most bytes of a file.
pub const LONGEST: usize = 65_536;

/// The most characters of a line that are shown.
const SHOWN: usize = 70;

/// A text without the byte order mark at its front.
fn without_mark(text: &str) -> &str {
    text.strip_prefix('\u{feff}').unwrap_or(text)
}

/// Line and column behind a text.
fn behind(text: &str) -> (usize, usize) {
    let last = text.rsplit('\n').next().unwrap_or_default();
    (text.matches('\n').count() + 1, last.chars().count() + 1)
}

/// The lines of a file, as characters.
pub fn lines(file: &[u8]) -> Result<Vec<Vec<char>>, Fault> {
    if file.len() > LONGEST {
        return Err(Fault::at((1, 1), format!("the file has more than {LONGEST} bytes, which is the most")));
    }
    let good = match std::str::from_utf8(file) {
        Ok(text) => return Ok(without_mark(text).lines().map(|line| line.chars().collect()).collect()),
        Err(error) => String::from_utf8_lossy(&file[..error.valid_up_to()]),
    };
    Err(Fault::at(behind(without_mark(&good)), "the file is not UTF-8 from here on"))
}

/// A character that a terminal shows as it is: a blank for a tab, and `?` for odd ones.
pub fn plain(c: char) -> char {
    match c {
        '\t' => ' ',
        c if is_odd(c) => '?',
        c => c,
    }
}

/// The line of a place, cut around it where it is long, and a caret under the place.
pub fn excerpt(file: &[u8], line: usize, column: usize) -> String {
    let text = String::from_utf8_lossy(file);
    let line = without_mark(&text).lines().nth(line.saturating_sub(1)).unwrap_or_default();
    let line: Vec<char> = line.chars().map(plain).collect();
    let place = column.saturating_sub(1).min(line.len());
    let end = (place.saturating_sub(SHOWN / 2) + SHOWN).min(line.len());
    let begin = end.saturating_sub(SHOWN);
    let [before, after] = [begin > 0, end < line.len()].map(|cut| if cut { ".." } else { "" });
    let shown: String = line[begin..end].iter().collect();
    let caret = " ".repeat(before.len() + place - begin) + "^";
    let shown = format!("    {before}{shown}{after}");
    format!("{}\n    {caret}\n", shown.trim_end())
}
