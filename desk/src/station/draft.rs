//! What each line says. The formulas are not read yet, since names may be used before their line.

use super::words::{listed, meant, no_name, quoted, LINE_WORDS, MODES};
use super::{Fault, Wire};
use crate::engine::Mode;

/// The most inputs, and the most outputs.
const WIRES: usize = 4;

/// A promise or a rule: a promise's mode, the place of its line's word, and the rests of lines that its formula stands
/// in (the line's index, and the index of the rest's first character).
#[derive(Clone)]
pub struct Clause {
    pub mode: Option<Mode>,
    pub at: (usize, usize),
    pub parts: Vec<(usize, usize)>,
}

impl Clause {
    /// What the clause is.
    pub fn word(&self) -> &'static str {
        if self.mode.is_some() {
            "promise"
        } else {
            "rule"
        }
    }
}

/// What the lines so far say; wires and texts with the number of their line.
#[derive(Default)]
pub struct Draft {
    pub title: Vec<String>,
    pub inputs: Vec<(Wire, usize)>,
    pub outputs: Vec<(Wire, usize)>,
    pub outside: Option<(String, usize)>,
    pub goal: Option<(String, usize)>,
    /// In the order of the file.
    pub clauses: Vec<Clause>,
    /// Whether there was a line that is neither empty nor a comment.
    begun: bool,
    /// Whether the last such line belongs to the last clause.
    open: bool,
}

/// A line under reading: its index, its characters, and how many of them are read.
struct Line<'a> {
    index: usize,
    text: &'a [char],
    read: usize,
}

impl Line<'_> {
    /// Passes blanks and tabs.
    fn pass_blanks(&mut self) {
        self.read += self.text[self.read..].iter().take_while(|c| matches!(c, ' ' | '\t')).count();
    }

    /// The next word, up to a blank or a tab, and its place; where there is none, an empty one behind the last word.
    fn word(&mut self) -> (String, (usize, usize)) {
        let behind = self.place();
        self.pass_blanks();
        let begin = self.place();
        let word: String = self.text[self.read..].iter().take_while(|c| !matches!(c, ' ' | '\t')).collect();
        self.read += word.chars().count();
        let place = if word.is_empty() { behind } else { begin };
        (word, place)
    }

    /// The rest of the line, without the blanks around it.
    fn rest(&mut self) -> String {
        let rest: String = self.text[self.read..].iter().collect();
        rest.trim_matches([' ', '\t']).into()
    }

    /// Line and column of the next character.
    fn place(&self) -> (usize, usize) {
        (self.index + 1, self.read + 1)
    }
}

impl Draft {
    /// What the lines of a file say.
    pub fn of(source: &[Vec<char>]) -> Result<Draft, Fault> {
        let mut draft = Draft::default();
        for (index, text) in source.iter().enumerate() {
            let mut line = Line { index, text, read: 0 };
            line.pass_blanks();
            match text.get(line.read) {
                None => {}
                Some('#') => draft.comment(&line.rest()),
                Some(_) => draft.line(&mut line)?,
            }
        }
        Ok(draft)
    }

    /// The names and the engine's bytes for them.
    pub fn names(&self) -> Vec<(&str, u8)> {
        let wires = self.inputs.iter().zip(b'a'..).chain(self.outputs.iter().zip(b'p'..));
        wires.map(|((wire, _), byte)| (&*wire.name, byte)).collect()
    }

    /// Takes a comment line: before the first other line it belongs to the title.
    fn comment(&mut self, text: &str) {
        let text = text.trim_start_matches('#').trim_matches([' ', '\t']);
        if !self.begun && !text.is_empty() {
            self.title.push(text.into());
        }
    }

    /// Takes a line that is neither empty nor a comment.
    fn line(&mut self, line: &mut Line) -> Result<(), Fault> {
        let begin = (line.index, line.read);
        let (word, at) = line.word();
        let went_on = std::mem::replace(&mut self.open, false);
        self.begun = true;
        match &*word {
            "input" => add_wire(&mut self.inputs, &self.outputs, "input", line),
            "output" => add_wire(&mut self.outputs, &self.inputs, "output", line),
            "outside" => set_text(&mut self.outside, ("outside", "who sets the inputs"), at, line),
            "goal" => set_text(&mut self.goal, ("goal", "what it means that the rule is kept"), at, line),
            "promise" => self.promise(at, line),
            "rule" => self.clause(None, at, line),
            _ => match self.clauses.last_mut() {
                Some(clause) if went_on => {
                    clause.parts.push(begin);
                    self.open = true;
                    Ok(())
                }
                _ => Err(Fault::at(at, unknown(&word))),
            },
        }
    }

    /// Takes a promise line, whose first word is read: its mode, and then as for a rule.
    fn promise(&mut self, at: (usize, usize), line: &mut Line) -> Result<(), Fault> {
        let (word, place) = line.word();
        let mode = match word.split('#').next() {
            Some("fair") => Mode::Fair,
            Some("stable") => Mode::Stable,
            _ => {
                let hint = meant(&word, MODES.into_iter()).unwrap_or_default();
                return Err(Fault::at(place, format!("after 'promise' comes 'fair' or 'stable'{hint}")));
            }
        };
        line.read = place.1 - 1 + mode.word().len();
        self.clause(Some(mode), at, line)
    }

    /// Begins a promise or a rule with the rest of a line.
    fn clause(&mut self, mode: Option<Mode>, at: (usize, usize), line: &Line) -> Result<(), Fault> {
        let clause = Clause { mode, at, parts: vec![(line.index, line.read)] };
        if let Some(first) = self.clauses.iter().find(|first| first.word() == clause.word()) {
            return Err(Fault::at(at, second(clause.word(), first.at.0)));
        }
        self.clauses.push(clause);
        self.open = true;
        Ok(())
    }
}

/// Takes the rest of an `input` or `output` line into the wires of its kind.
fn add_wire(own: &mut Vec<(Wire, usize)>, other: &[(Wire, usize)], kind: &str, line: &mut Line) -> Result<(), Fault> {
    let word_at = (line.index + 1, line.read + 1 - kind.len());
    if own.len() == WIRES {
        return Err(Fault::at(word_at, format!("this is the fifth {kind}, and at most {WIRES} are allowed")));
    }
    let (name, at) = line.word();
    if name.is_empty() {
        return Err(Fault::at(at, format!("the {kind} has no name")));
    }
    if let Some(reason) = no_name(&name) {
        return Err(Fault::at(at, format!("{} cannot be a name: {reason}", quoted(&name))));
    }
    if let Some((_, first)) = own.iter().chain(other).find(|(wire, _)| wire.name == name) {
        return Err(Fault::at(at, format!("the name {} is already declared, in line {first}", quoted(&name))));
    }
    own.push((Wire { name, note: line.rest() }, line.index + 1));
    Ok(())
}

/// Takes the rest of an `outside` or `goal` line, whose word has a meaning.
fn set_text(
    text: &mut Option<(String, usize)>,
    (word, meaning): (&str, &str),
    at: (usize, usize),
    line: &mut Line,
) -> Result<(), Fault> {
    if let Some((_, first)) = text {
        return Err(Fault::at(at, second(word, *first)));
    }
    let behind = line.place();
    let rest = line.rest();
    if rest.is_empty() || rest.starts_with('#') {
        return Err(Fault::at(behind, format!("after '{word}' comes {meaning}")));
    }
    *text = Some((rest, line.index + 1));
    Ok(())
}

/// That a line may stand only once.
fn second(word: &str, first: usize) -> String {
    format!("there is a second '{word}' line, and one is allowed: the first is line {first}")
}

/// That a line begins with no known word.
fn unknown(word: &str) -> String {
    let hint = meant(word, LINE_WORDS.into_iter()).unwrap_or_default();
    format!("a line begins with {}, not with {}{hint}", listed(&LINE_WORDS, "or"), quoted(word))
}
