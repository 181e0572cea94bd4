//! A formula's words and marks as the engine's bytes, each with its place in the file.

use super::draft::Clause;
use super::words::{listed, meant, near, operator, quoted, run, LETTERS, LINE_WORDS, OPERATORS, WEAK};
use super::{Fault, Token};

/// A run of name characters or one other character, with its place, and whether it is the first of its line.
struct Piece {
    text: String,
    line: usize,
    column: usize,
    first: bool,
}

impl Piece {
    /// A token of this piece: from a character of it, so many characters wide.
    fn token(&self, byte: u8, from: usize, width: usize) -> Token {
        Token { byte, line: self.line, column: self.column + from, width }
    }

    /// The place behind it.
    fn end(&self) -> (usize, usize) {
        (self.line, self.column + self.text.chars().count())
    }

    /// A fault at this piece.
    fn fault(&self, message: String) -> Fault {
        Fault::at((self.line, self.column), message)
    }
}

/// The pieces of a formula, without blanks and comments.
fn pieces(source: &[Vec<char>], clause: &Clause) -> Vec<Piece> {
    let mut list = vec![];
    for &(index, from) in &clause.parts {
        let text = &source[index];
        let end = text[from..].iter().position(|&c| c == '#').map_or(text.len(), |length| from + length);
        let mut at = from;
        while at < end {
            let length = run(&text[at..end]).max(1);
            if !matches!(text[at], ' ' | '\t') {
                let piece = text[at..at + length].iter().collect();
                list.push(Piece { text: piece, line: index + 1, column: at + 1, first: at == from });
            }
            at += length;
        }
    }
    list
}

/// The tokens of a clause's formula, and the place behind the last one.
pub fn tokens(
    source: &[Vec<char>],
    clause: &Clause,
    names: &[(&str, u8)],
) -> Result<(Vec<Token>, (usize, usize)), Fault> {
    let pieces = pieces(source, clause);
    let mut list = vec![];
    let mut rest = &pieces[..];
    while let Some((piece, after)) = rest.split_first() {
        rest = after;
        if piece.text == WEAK {
            list.push(weak_next(piece, after.first())?);
            rest = &after[1..];
        } else if piece.text.starts_with(|c: char| c.is_ascii_alphanumeric() || c == '_') {
            list.extend(word(piece, names)?);
        } else {
            list.push(mark(piece, after.first())?);
        }
    }
    Ok((list, pieces.last().map_or(clause.at, Piece::end)))
}

/// The token of `weak next`. Where the two words stand in two lines, it is as wide as the first.
fn weak_next(weak: &Piece, next: Option<&Piece>) -> Result<Token, Fault> {
    match next {
        Some(next) if next.text == "next" => {
            let same = next.line == weak.line;
            let width = if same { next.end().1 - weak.column } else { WEAK.len() };
            Ok(weak.token(b'N', 0, width))
        }
        _ => Err(weak.fault("after 'weak' comes 'next'".into())),
    }
}

/// The tokens of a run of name characters: an operator's word, or else names and one-letter marks.
fn word(piece: &Piece, names: &[(&str, u8)]) -> Result<Vec<Token>, Fault> {
    if let Some(byte) = operator(&piece.text) {
        return Ok(vec![piece.token(byte, 0, piece.text.len())]);
    }
    let tokens = split(piece, names).filter(|tokens| !miswritten(piece, names, tokens));
    tokens.ok_or_else(|| piece.fault(unknown(piece, names)))
}

/// Whether a run that would be read as two one-letter marks or more, and nothing else, is a name but for its capitals.
fn miswritten(piece: &Piece, names: &[(&str, u8)], tokens: &[Token]) -> bool {
    let marks = tokens.iter().all(|token| LETTERS.as_bytes().contains(&token.byte));
    marks && tokens.len() > 1 && names.iter().any(|(name, _)| name.eq_ignore_ascii_case(&piece.text))
}

/// A run split from its front, each time into the longest name that fits or else a one-letter mark; so a name alone is
/// that name.
fn split(piece: &Piece, names: &[(&str, u8)]) -> Option<Vec<Token>> {
    let mut list = vec![];
    let mut at = 0;
    while at < piece.text.len() {
        let rest = &piece.text[at..];
        let fitting = names.iter().filter(|(name, _)| rest.starts_with(name)).max_by_key(|(name, _)| name.len());
        let first = piece.text.as_bytes()[at];
        let (width, byte) = match fitting {
            Some((name, byte)) => (name.len(), *byte),
            None if LETTERS.as_bytes().contains(&first) => (1, first),
            None => return None,
        };
        list.push(piece.token(byte, at, width));
        at += width;
    }
    Some(list)
}

/// What is said of a word that is no name, with what it may have been.
fn unknown(piece: &Piece, names: &[(&str, u8)]) -> String {
    let (word, lower) = (&*piece.text, piece.text.to_ascii_lowercase());
    let lead = format!("unknown name {}", quoted(word));
    if let Some(hint) = line_word(piece) {
        return format!("{lead}: {hint}");
    }
    if operator(&lower).is_some() {
        return format!("{lead}: write '{lower}'");
    }
    if [WEAK, "weaknext", "weak-next", "weak_next"].contains(&&*lower) {
        return format!("{lead}: write 'weak next'");
    }
    let names: Vec<&str> = names.iter().map(|(name, _)| *name).collect();
    let long = OPERATORS.iter().map(|(word, _)| *word).filter(|word| word.len() > 3);
    let all = || match names.len() {
        0 => ": no name is declared".into(),
        1 => format!(": the only name is {}", listed(&names, "and")),
        _ => format!(": the names are {}", listed(&names, "and")),
    };
    lead + &meant(word, names.iter().copied().chain(long)).unwrap_or_else(all)
}

/// What is said of a word that lines begin with, or, as the first of its line, of one that is near it.
fn line_word(piece: &Piece) -> Option<String> {
    if LINE_WORDS.contains(&&*piece.text) {
        return Some("it is a word that lines begin with, and a blank follows it there".into());
    }
    let known = LINE_WORDS.into_iter().find(|known| piece.first && near(&piece.text, known))?;
    Some(format!("did you mean a line that begins with '{known}'?"))
}

/// The token of one character that is no name character.
fn mark(piece: &Piece, next: Option<&Piece>) -> Result<Token, Fault> {
    if let [byte @ (b'!' | b'&' | b'|' | b'>' | b'(' | b')')] = piece.text.as_bytes() {
        return Ok(piece.token(*byte, 0, 1));
    }
    let behind = next.filter(|next| (next.line, next.column) == piece.end()).map_or("", |next| &*next.text);
    let hint = habit(&piece.text, behind).map(|hint| format!(": {hint}")).unwrap_or_default();
    Err(piece.fault(format!("{} is no mark{hint}", character(&piece.text))))
}

/// A character for a message: printable ones and letters in quotes, all others by their code points.
fn character(text: &str) -> String {
    let known = |c: char| c.is_ascii_graphic() || c.is_alphanumeric() || "¬∧∨→⇒↔⇔≡".contains(c);
    match text.chars().next() {
        Some(c) if !known(c) => format!("the character U+{:04X}", c as u32),
        _ => quoted(text),
    }
}

/// What to write instead of a mark of other languages, which `behind` directly follows.
fn habit(text: &str, behind: &str) -> Option<&'static str> {
    match (text, behind) {
        ("-" | "=", ">") | ("→" | "⇒", _) => Some("write '>' or 'implies'"),
        ("~" | "¬", _) => Some("write '!' or 'not'"),
        ("∧", _) => Some("write '&' or 'and'"),
        ("∨", _) => Some("write '|' or 'or'"),
        ("<", ">") => Some("write 'F' or 'eventually'"),
        ("[", "]") => Some("write 'G' or 'always'"),
        ("[" | "{", _) => Some("write '('"),
        ("]" | "}", _) => Some("write ')'"),
        ("=" | "<" | "↔" | "⇔" | "≡", _) => Some("for 'the same' write '(x > y) & (y > x)'"),
        ("-", _) => Some("it may stand only inside a name"),
        (text, _) if text.chars().any(char::is_alphabetic) => Some("names have the letters a to z and A to Z only"),
        _ => None,
    }
}
