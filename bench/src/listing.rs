//! MONA's printed automaton, read into moves over our letters. In M2L-str its state 0 only
//! takes a column that is no position; the state after it stands before the first position.

use crate::inputs::Rule;
use crate::mona::variables;

/// What MONA says of a state.
#[derive(Clone, Copy, Debug, PartialEq, Eq, PartialOrd, Ord)]
pub enum Mark {
    Accepting,
    Rejecting,
    Open,
}

/// MONA's automaton; `start` is the state before the first position.
#[derive(Debug)]
pub struct Listing {
    pub states: usize,
    pub start: usize,
    pub marks: Vec<Mark>,
    pub moves: Vec<usize>,
}

/// What stands after a beginning on the line that has it.
fn after<'a>(text: &'a str, beginning: &str) -> &'a str {
    let line = text.lines().find_map(|line| line.strip_prefix(beginning));
    line.unwrap_or_else(|| panic!("mona prints no line with {beginning}"))
}

/// The numbers in a text.
fn numbers(text: &str) -> Vec<usize> {
    text.split_whitespace().filter_map(|word| word.parse().ok()).collect()
}

/// For each column of a printed letter the bit of our letter.
fn columns(text: &str, rule: &Rule) -> Vec<usize> {
    let ours = variables(rule.i, rule.o);
    let place = |name: &str| ours.iter().position(|&own| name == own.to_string()).expect("a declared variable");
    after(text, "DFA for formula with free variables:").split_whitespace().map(place).collect()
}

/// Whether a letter fits a pattern of 0, 1 and X.
fn fits(pattern: &str, columns: &[usize], letter: usize) -> bool {
    pattern.bytes().zip(columns).all(|(byte, bit)| byte == b'X' || (byte == b'1') == (letter >> bit & 1 == 1))
}

/// The parts of a transition's line: state, pattern, next state.
fn transition(line: &str) -> Option<(usize, &str, usize)> {
    let (state, rest) = line.strip_prefix("State ")?.split_once(':')?;
    let (pattern, next) = rest.split_once("-> state ")?;
    Some((state.parse().ok()?, pattern.trim(), next.trim().parse().ok()?))
}

/// Reads a printed automaton. Every letter has to have a move in every state.
pub fn parse(text: &str, rule: &Rule) -> Listing {
    let states = numbers(after(text, "Automaton has "))[0];
    let mut marks = vec![Mark::Open; states];
    numbers(after(text, "Accepting states:")).iter().for_each(|&s| marks[s] = Mark::Accepting);
    numbers(after(text, "Rejecting states:")).iter().for_each(|&s| marks[s] = Mark::Rejecting);
    let columns = columns(text, rule);
    let letters = rule.letters();
    let mut moves = vec![usize::MAX; states * letters];
    for (s, pattern, next) in text.lines().filter_map(transition) {
        for letter in (0..letters).filter(|&letter| fits(pattern, &columns, letter)) {
            moves[s * letters + letter] = next;
        }
    }
    assert!(moves.iter().all(|&t| t < states), "a move is missing in what mona prints");
    let initial = numbers(after(text, "Initial state:"))[0];
    Listing { states, start: moves[initial * letters], marks, moves }
}
