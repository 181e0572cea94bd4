//! The words of a station file, what may be a name, and what a misspelled word may have been.

use super::source::plain;

/// The words that lines begin with.
pub const LINE_WORDS: [&str; 6] = ["input", "output", "outside", "goal", "promise", "rule"];

/// The words that a promise begins with.
pub const MODES: [&str; 2] = ["fair", "stable"];

/// The operators and constants that have a word, and the engine's bytes. Weak next has two words.
pub const OPERATORS: [(&str, u8); 11] = [
    ("not", b'!'),
    ("next", b'X'),
    ("eventually", b'F'),
    ("always", b'G'),
    ("until", b'U'),
    ("release", b'R'),
    ("and", b'&'),
    ("or", b'|'),
    ("implies", b'>'),
    ("true", b'1'),
    ("false", b'0'),
];

/// The first of the two words of weak next.
pub const WEAK: &str = "weak";

/// The one-letter marks that a word may be split into.
pub const LETTERS: &str = "XNFGUR01";

/// The engine's byte of a word.
pub fn operator(word: &str) -> Option<u8> {
    OPERATORS.iter().find(|(name, _)| *name == word).map(|(_, byte)| *byte)
}

/// Whether a character is a letter, a digit or `_`.
fn is_inner(c: char) -> bool {
    c.is_ascii_alphanumeric() || c == '_'
}

/// The length of the run of name characters at the front: letters, digits, `_`, and a `-` between two of them.
pub fn run(text: &[char]) -> usize {
    let inner = |k: usize| text.get(k).is_some_and(|&c| is_inner(c));
    let goes_on = |k: usize| inner(k) || text[k] == '-' && k > 0 && inner(k + 1);
    (0..text.len()).find(|&k| !goes_on(k)).unwrap_or(text.len())
}

/// Why a word may not be a name, or nothing where it may.
pub fn no_name(word: &str) -> Option<&'static str> {
    let text: Vec<char> = word.chars().collect();
    if run(&text) < text.len() || text.first().is_none_or(|c| c.is_ascii_digit()) {
        return Some(
            "a name has letters (a to z, A to Z), digits and '_', begins with a letter or '_', and may have '-' inside",
        );
    }
    if LINE_WORDS.contains(&word) {
        return Some("it is a word that lines begin with");
    }
    if word == WEAK || operator(word).is_some() || MODES.contains(&word) {
        return Some("it is a word of promises and rules");
    }
    (word.len() == 1 && LETTERS.contains(word)).then_some("it is a mark of rules")
}

/// Whether two words differ by case only, or by one letter put in, left out or changed, or by two that are swapped.
pub fn near(one: &str, other: &str) -> bool {
    if one.eq_ignore_ascii_case(other) {
        return one != other;
    }
    let [mut left, mut right]: [Vec<char>; 2] = [one, other].map(|word| word.chars().collect());
    if left.len().max(right.len()) < 2 {
        return false;
    }
    let front = left.iter().zip(&right).take_while(|(a, b)| a == b).count();
    (left, right) = (left.split_off(front), right.split_off(front));
    let back = left.iter().rev().zip(right.iter().rev()).take_while(|(a, b)| a == b).count();
    let (left, right) = (&left[..left.len() - back], &right[..right.len() - back]);
    match (left, right) {
        ([_], [_]) | ([], [_]) | ([_], []) => true,
        ([a, b], [c, d]) => (a, b) == (d, c),
        _ => false,
    }
}

/// ": did you mean 'WORD'?" for the first word that differs by case only, else for the first that is near, or nothing.
pub fn meant<'a>(word: &str, words: impl Iterator<Item = &'a str> + Clone) -> Option<String> {
    let cased = words.clone().find(|known| known.eq_ignore_ascii_case(word) && *known != word);
    let known = cased.or_else(|| words.into_iter().find(|known| near(word, known)));
    known.map(|known| format!(": did you mean '{known}'?"))
}

/// A text of the file for a message: with characters that a terminal shows, and cut where it is long.
pub fn shown(text: &str) -> String {
    let mut shown: String = text.chars().take(40).map(plain).collect();
    if text.chars().nth(40).is_some() {
        shown += "..";
    }
    shown
}

/// The same in quotes.
pub fn quoted(text: &str) -> String {
    format!("'{}'", shown(text))
}

/// Words as a list in a sentence: "'a', 'b' or 'c'".
pub fn listed(words: &[&str], last: &str) -> String {
    let quoted: Vec<String> = words.iter().map(|word| format!("'{word}'")).collect();
    match quoted.split_last() {
        Some((end, front)) if !front.is_empty() => format!("{} {last} {end}", front.join(", ")),
        _ => quoted.concat(),
    }
}
