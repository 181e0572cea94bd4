//! Characters that are not shown as they are, neither on a terminal nor in a page.

/// Whether a character is a control character, or one that turns the direction of writing.
pub fn is_odd(c: char) -> bool {
    c.is_control()
        || matches!(c, '\u{61c}' | '\u{200e}' | '\u{200f}' | '\u{202a}'..='\u{202e}' | '\u{2066}'..='\u{2069}')
}

/// A text as a terminal shows it, with ? for odd characters.
pub fn printable(text: &str) -> String {
    text.chars().map(|c| if is_odd(c) { '?' } else { c }).collect()
}
