//! Text in a page.

use crate::odd::is_odd;

/// A text as HTML shows it, also within a quoted attribute, with the sign for what cannot be shown in the place of odd characters.
pub fn escaped(text: &str) -> String {
    let mut page = String::with_capacity(text.len());
    for c in text.chars() {
        match c {
            '&' => page += "&amp;",
            '<' => page += "&lt;",
            '>' => page += "&gt;",
            '"' => page += "&quot;",
            c if is_odd(c) && c != '\n' && c != '\t' => page.push('\u{fffd}'),
            c => page.push(c),
        }
    }
    page
}
