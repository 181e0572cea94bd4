//! Formulas in words: one line where a formula is short and speaks of one step, else a lead with a list below it.

use crate::case::Case;
use crate::station::Token;
use crate::tree::Tree;

/// A reading, its text in HTML.
#[derive(Clone, Debug, PartialEq, Eq)]
pub enum Reading {
    Line(String),
    List(String, Vec<Reading>),
}

/// The most characters of a line before it is taken apart.
const LINE: usize = 72;

/// Whether a formula speaks of one step alone.
fn plain(tree: &Tree) -> bool {
    match tree {
        Tree::False | Tree::True | Tree::Name(_) => true,
        Tree::Not(x) => plain(x),
        Tree::And(x, y) | Tree::Or(x, y) | Tree::Implies(x, y) => plain(x) && plain(y),
        _ => false,
    }
}

/// The operands of a chain of one operator, in their order.
fn chain<'a>(tree: &'a Tree, parts: fn(&Tree) -> Option<(&Tree, &Tree)>) -> Vec<&'a Tree> {
    match parts(tree) {
        Some((x, y)) => [chain(x, parts), chain(y, parts)].concat(),
        None => vec![tree],
    }
}

/// The operands of an "and".
fn conjunction(tree: &Tree) -> Option<(&Tree, &Tree)> {
    match tree {
        Tree::And(x, y) => Some((x, y)),
        _ => None,
    }
}

/// The operands of an "or".
fn disjunction(tree: &Tree) -> Option<(&Tree, &Tree)> {
    match tree {
        Tree::Or(x, y) => Some((x, y)),
        _ => None,
    }
}

/// A reader in words, with the names that the engine's letters stand for.
pub struct Words<'a> {
    inputs: Vec<&'a str>,
    outputs: Vec<&'a str>,
}

impl<'a> Words<'a> {
    /// The words of a case.
    pub fn of(case: &'a Case) -> Words<'a> {
        Words { inputs: case.input_names(), outputs: case.output_names() }
    }

    /// The name that a letter of the engine stands for.
    pub fn name(&self, letter: u8) -> &'a str {
        match letter {
            b'a'..=b'd' => self.inputs[usize::from(letter - b'a')],
            _ => self.outputs[usize::from(letter - b'p')],
        }
    }

    /// A formula of one step in words; in parentheses if it stands within another and has operands of its own.
    fn phrase(&self, tree: &Tree, within: bool) -> String {
        let joined = |trees: Vec<&Tree>, word: &str| {
            let parts: Vec<String> = trees.into_iter().map(|part| self.phrase(part, true)).collect();
            parts.join(word)
        };
        let text = match tree {
            Tree::False => return "false".into(),
            Tree::True => return "true".into(),
            Tree::Name(letter) => return format!("<b>{}</b>", self.name(*letter)),
            Tree::Not(x) => return format!("not {}", self.phrase(x, true)),
            Tree::And(..) => joined(chain(tree, conjunction), " and "),
            Tree::Or(..) => joined(chain(tree, disjunction), " or "),
            Tree::Implies(x, y) => format!("if {} then {}", self.phrase(x, true), self.phrase(y, true)),
            _ => unreachable!("a formula of more than one step"),
        };
        if within {
            format!("({text})")
        } else {
            text
        }
    }

    /// The readings of some formulas.
    fn all(&self, trees: &[&Tree]) -> Vec<Reading> {
        trees.iter().map(|tree| self.reading(tree)).collect()
    }

    /// A formula in words. "This step" is the one that the formula is about: the first, if it is a whole rule.
    pub fn reading(&self, tree: &Tree) -> Reading {
        if plain(tree) {
            let line = self.phrase(tree, false);
            if shown_length(&line) <= LINE {
                return Reading::Line(line);
            }
        }
        let list = |lead: &str, trees: &[&Tree]| Reading::List(lead.into(), self.all(trees));
        match tree {
            Tree::And(..) => list("all of these hold:", &chain(tree, conjunction)),
            Tree::Or(..) => list("at least one of these holds:", &chain(tree, disjunction)),
            Tree::Implies(x, y) => {
                let parts = vec![list("if this holds:", &[x]), list("then this holds too:", &[y])];
                Reading::List("one thing follows from another:".into(), parts)
            }
            Tree::Not(x) => list("it is not so that:", &[x]),
            _ => self.temporal(tree),
        }
    }

    /// A formula that begins with a temporal operator.
    fn temporal(&self, tree: &Tree) -> Reading {
        let list = |lead: &str, tree: &Tree| Reading::List(lead.into(), vec![self.reading(tree)]);
        match tree {
            Tree::Next(x) => list("there is a step after this one, and in it:", x),
            Tree::WeakNext(x) => list("if there is a step after this one, then in it:", x),
            Tree::Eventually(x) => list("in this step or a later one:", x),
            Tree::Always(x) => list("in this step and every later one so far:", x),
            Tree::Until(x, y) => {
                let parts = vec![
                    list("a step comes, this one or a later one, in which:", y),
                    list("and in every step before that one, from this one on:", x),
                ];
                Reading::List("both of these hold:".into(), parts)
            }
            Tree::Release(x, y) => {
                let lead = "the first of these two holds in this step and every later one so far, \
                    or else up to and including a step in which the second holds as well:";
                Reading::List(lead.into(), vec![self.reading(y), self.reading(x)])
            }
            Tree::False | Tree::True | Tree::Name(_) => Reading::Line(self.phrase(tree, false)),
            Tree::Not(_) | Tree::And(..) | Tree::Or(..) | Tree::Implies(..) => self.reading(tree),
        }
    }
}

/// How many characters a line of HTML shows, its names having none to escape.
fn shown_length(line: &str) -> usize {
    let mut within = false;
    line.chars()
        .filter(|&c| {
            let counts = !within && c != '<';
            within = c == '<' || within && c != '>';
            counts
        })
        .count()
}

impl Reading {
    /// The reading as HTML, to stand in a paragraph's place.
    pub fn html(&self) -> String {
        match self {
            Reading::Line(text) => format!("<p>{text}</p>\n"),
            Reading::List(lead, parts) => format!("<p>{lead}</p>\n{}", items(parts)),
        }
    }
}

/// Readings as a list.
fn items(parts: &[Reading]) -> String {
    let item = |part: &Reading| match part {
        Reading::Line(text) => format!("<li>{text}</li>\n"),
        Reading::List(lead, parts) => format!("<li>{lead}\n{}</li>\n", items(parts)),
    };
    format!("<ul>\n{}</ul>\n", parts.iter().map(item).collect::<String>())
}

/// A formula in the engine's marks and the file's names.
pub fn marks(words: &Words, tokens: &[Token]) -> String {
    let mut text = String::new();
    for token in tokens {
        match token.byte {
            b'a'..=b'd' | b'p'..=b's' => text += words.name(token.byte),
            mark @ (b'U' | b'R' | b'&' | b'|' | b'>') => {
                text.push(' ');
                text.push(mark as char);
                text.push(' ');
            }
            mark @ (b'X' | b'N' | b'F' | b'G') => {
                text.push(mark as char);
                text.push(' ');
            }
            mark => text.push(mark as char),
        }
    }
    text
}
