//! The engine's refusals in the file's words and at the file's place.

use super::words::{quoted, shown};
use super::{Fault, Station, Token};
use crate::engine::Refusal;

/// The limits of include/airtable.h.
const BYTES: usize = 255;
const NODES: usize = 64;
const OPERATORS: usize = 5;
const STATES: usize = 128;

/// The promise or the rule: its name for sentences, its tokens, and where it begins and ends.
struct Formula<'a> {
    name: &'static str,
    tokens: &'a [Token],
    at: (usize, usize),
    end: (usize, usize),
}

/// Whether a byte is a temporal operator.
fn temporal(token: &&Token) -> bool {
    b"XNFGUR".contains(&token.byte)
}

/// How many names, constants and operators there are.
fn nodes(tokens: &[Token]) -> usize {
    tokens.iter().filter(|token| !b"()".contains(&token.byte)).count()
}

impl Station {
    /// What the engine refuses, in the file's words and at the file's place.
    pub fn refused(&self, refusal: Refusal) -> Fault {
        let (rule, promise) = (self.rule_formula(), self.promise_formula());
        match refusal.number {
            2 => too_long(if rule.tokens.len() > BYTES { &rule } else { &promise }),
            4 => self.bad(&rule, refusal.place),
            5 => too_many_nodes(&rule),
            6 => self.too_many_operators(&rule),
            7 => self.bad(&promise, refusal.place),
            8 => too_many_nodes(&promise),
            9 => {
                let message =
                    format!("the rule takes more than {STATES} states, which is the most that an automaton may have");
                Fault::at(rule.at, message)
            }
            15 => {
                let message =
                    format!("no input meets the promise's condition, so {} could not keep it", shown(&self.outside));
                Fault::at(promise.at, message)
            }
            number => Fault::at(rule.at, format!("the engine refuses the rule (refusal {number})")),
        }
    }

    /// The rule.
    fn rule_formula(&self) -> Formula<'_> {
        Formula { name: "rule", tokens: &self.rule, at: self.rule_at, end: self.rule_end }
    }

    /// The promise.
    fn promise_formula(&self) -> Formula<'_> {
        Formula { name: "promise", tokens: &self.promise, at: self.promise_at, end: self.promise_end }
    }

    /// A token as it stands in the file, in quotes.
    fn quote(&self, token: &Token) -> String {
        if token.byte == b'N' && token.width > 1 {
            return "'weak next'".into();
        }
        let line = self.lines.get(token.line.saturating_sub(1)).map_or("", |line| line);
        quoted(&line.chars().skip(token.column.saturating_sub(1)).take(token.width).collect::<String>())
    }

    /// A text that is bad from its k-th token on, or that ends too early.
    fn bad(&self, formula: &Formula, k: usize) -> Fault {
        match formula.tokens.get(k) {
            Some(token) => Fault::at((token.line, token.column), self.misplaced(formula, k, token)),
            None => Fault::at(formula.end, self.unfinished(formula)),
        }
    }

    /// What is said of a token that cannot stand where it does.
    fn misplaced(&self, formula: &Formula, k: usize, token: &Token) -> String {
        let quote = self.quote(token);
        if formula.name == "promise" && b"pqrs".contains(&token.byte) {
            return format!("{quote} is an output, and a promise has inputs only");
        }
        if formula.name == "promise" && temporal(&token) {
            return format!("{quote} cannot stand in a promise, which has no temporal operators");
        }
        let doubled = |before: &Token| {
            b"&|".contains(&token.byte)
                && (before.byte, before.line, before.column + 1) == (token.byte, token.line, token.column)
        };
        let before = k.checked_sub(1).and_then(|k| formula.tokens.get(k));
        let hint = if before.is_some_and(doubled) { ": write it once" } else { "" };
        format!("the {}: {quote} cannot stand here{hint}", formula.name)
    }

    /// What is missing at the end of a text that ends too early.
    fn unfinished(&self, formula: &Formula) -> String {
        match formula.tokens.last() {
            Some(last) if b"!XNFGUR&|>(".contains(&last.byte) => {
                format!("the {} ends too early: nothing follows {}", formula.name, self.quote(last))
            }
            _ => format!("the {} ends too early: a ')' is missing", formula.name),
        }
    }

    /// More temporal operators than allowed; the place is the first one too many.
    fn too_many_operators(&self, formula: &Formula) -> Fault {
        let list: Vec<&Token> = formula.tokens.iter().filter(temporal).collect();
        let message =
            format!("the {} has {} temporal operators, and at most {OPERATORS} are allowed", formula.name, list.len());
        match list.get(OPERATORS) {
            Some(token) => {
                Fault::at((token.line, token.column), format!("{message}: {} is the sixth", self.quote(token)))
            }
            None => Fault::at(formula.at, message),
        }
    }
}

/// A text with more tokens than allowed.
fn too_long(formula: &Formula) -> Fault {
    let Formula { name, tokens, at, .. } = formula;
    Fault::at(*at, format!("the {name} has {} names and marks, and at most {BYTES} are allowed", tokens.len()))
}

/// A text with more names, constants and operators than allowed.
fn too_many_nodes(formula: &Formula) -> Fault {
    let Formula { name, tokens, at, .. } = formula;
    let count = nodes(tokens);
    Fault::at(*at, format!("the {name} has {count} names, constants and operators, and at most {NODES} are allowed"))
}
