//! The station file: wires, promise and rule in its own names; what is wrong in it, and where.
//!
//! source   the file's lines, and a line with a caret under a place
//! words    the words of a station file, what may be a name, and what a misspelled word may have been
//! draft    what each line says; the formulas are not read yet
//! lexer    a formula's words and marks as the engine's bytes
//! refusal  the engine's refusals in the file's words

mod draft;
mod lexer;
mod refusal;
mod source;
mod words;

use crate::engine::{Mode, Question};
use draft::{Clause, Draft};

pub use source::LONGEST;

/// What it means that the rule is kept, where the file does not say it.
pub const GOAL: &str = "the rule is kept";

/// An input or an output: its name and what it means.
#[derive(Clone, Debug, PartialEq, Eq)]
pub struct Wire {
    pub name: String,
    pub note: String,
}

/// A mark of a formula: the engine's byte, and where it stands in the file (line and column from 1, and the characters that it takes).
#[derive(Clone, Copy, Debug, PartialEq, Eq)]
pub struct Token {
    pub byte: u8,
    pub line: usize,
    pub column: usize,
    pub width: usize,
}

/// A station file that was read.
#[derive(Clone, Debug)]
pub struct Station {
    /// The comment at the top of the file, a line each.
    pub title: Vec<String>,
    pub inputs: Vec<Wire>,
    pub outputs: Vec<Wire>,
    /// Who sets the inputs, for sentences: "the outside" if the file says nothing.
    pub outside: String,
    /// What it means that the rule is kept, as a clause: "the rule is kept" if the file says nothing.
    pub goal: String,
    pub mode: Mode,
    pub promise: Vec<Token>,
    pub rule: Vec<Token>,
    /// Where promise and rule begin in the file: line and column of their first mark, or of the word before them.
    pub promise_at: (usize, usize),
    pub rule_at: (usize, usize),
    /// Where they end: line and column behind their last mark.
    pub promise_end: (usize, usize),
    pub rule_end: (usize, usize),
    /// The lines of the file, from which tokens are quoted.
    pub lines: Vec<String>,
}

impl Station {
    /// The engine's four lines.
    pub fn question(&self) -> Question {
        let text = |tokens: &[Token]| tokens.iter().map(|token| token.byte as char).collect();
        Question {
            inputs: self.inputs.len(),
            outputs: self.outputs.len(),
            mode: self.mode,
            condition: text(&self.promise),
            rule: text(&self.rule),
        }
    }
}

/// What is wrong in a station file: the place (line and column from 1, in characters) and a sentence.
#[derive(Clone, Debug, PartialEq, Eq)]
pub struct Fault {
    pub line: usize,
    pub column: usize,
    pub message: String,
}

impl Fault {
    /// A fault at a line and a column.
    fn at((line, column): (usize, usize), message: impl Into<String>) -> Fault {
        Fault { line, column, message: message.into() }
    }

    /// The fault as text: where and what, the line of the file, and a caret under the place. `name` is the file's name,
    /// as it is to be printed.
    pub fn shown(&self, name: &str, file: &[u8]) -> String {
        let Fault { line, column, message } = self;
        format!("{name}:{line}:{column}: {message}\n{}", source::excerpt(file, *line, *column))
    }
}

/// A formula that was read: the clause it belongs to, its tokens, and the place behind the last one.
struct Formula {
    clause: Clause,
    tokens: Vec<Token>,
    end: (usize, usize),
}

impl Formula {
    /// Where the formula begins.
    fn at(&self) -> (usize, usize) {
        self.tokens.first().map_or(self.clause.at, |token| (token.line, token.column))
    }
}

/// What is promised where no line says so: the constant 1, at the place of the rule line.
fn nothing_promised(rule: &Clause) -> Formula {
    let at = rule.at;
    let tokens = vec![Token { byte: b'1', line: at.0, column: at.1, width: 0 }];
    Formula { clause: Clause { mode: Some(Mode::Fair), at, parts: vec![] }, tokens, end: at }
}

/// The formulas of the promise and the rule. The fault is the first one in the order of the file, and only then what is
/// missing.
fn formulas(source: &[Vec<char>], draft: &Draft) -> Result<(Formula, Formula), Fault> {
    let names = draft.names();
    let read = |clause: &Clause| {
        let (tokens, end) = lexer::tokens(source, clause, &names)?;
        Ok(Formula { clause: clause.clone(), tokens, end })
    };
    let list = draft.clauses.iter().map(read).collect::<Result<Vec<Formula>, Fault>>()?;
    if let Some(formula) = list.iter().find(|formula| formula.tokens.is_empty()) {
        return Err(Fault::at(formula.clause.at, format!("the {} has no formula", formula.clause.word())));
    }
    let (mut rules, mut promises): (Vec<_>, Vec<_>) =
        list.into_iter().partition(|formula| formula.clause.mode.is_none());
    let Some(rule) = rules.pop() else {
        let (line, column) = source.last().map_or((1, 1), |line| (source.len(), line.len() + 1));
        return Err(Fault::at((line, column), "the file has no rule: a line 'rule FORMULA' is missing"));
    };
    let promise = promises.pop().unwrap_or_else(|| nothing_promised(&rule.clause));
    Ok((promise, rule))
}

/// A text that stands within sentences: without a full stop of its own.
fn clause(text: &str) -> String {
    let clause = text.trim_end_matches(['.', ' ', '\t']);
    if clause.is_empty() { text } else { clause }.into()
}

/// Reads a station file.
pub fn read(file: &[u8]) -> Result<Station, Fault> {
    let source = source::lines(file)?;
    let draft = Draft::of(&source)?;
    let (promise, rule) = formulas(&source, &draft)?;
    Ok(Station {
        title: draft.title,
        inputs: draft.inputs.into_iter().map(|(wire, _)| wire).collect(),
        outputs: draft.outputs.into_iter().map(|(wire, _)| wire).collect(),
        outside: draft.outside.map_or("the outside".into(), |(text, _)| clause(&text)),
        goal: draft.goal.map_or(GOAL.into(), |(text, _)| clause(&text)),
        mode: promise.clause.mode.unwrap_or(Mode::Fair),
        promise_at: promise.at(),
        rule_at: rule.at(),
        promise_end: promise.end,
        rule_end: rule.end,
        promise: promise.tokens,
        rule: rule.tokens,
        lines: source.into_iter().map(String::from_iter).collect(),
    })
}
