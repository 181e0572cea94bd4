//! The rules that are measured: readings of small rules, the published rows that the
//! limits allow, and the largest rules that are known.

use solver::large::LARGE;

/// A rule with its signature and condition.
#[derive(Clone, Debug)]
pub struct Rule {
    pub i: usize,
    pub o: usize,
    pub condition: Vec<u8>,
    pub text: Vec<u8>,
}

/// The readings that are served, all with one input and one output: condition and rule.
const READINGS: [(&str, &str); 10] = [
    ("1", "Fp"),
    ("1", "Fa"),
    ("a", "Fa"),
    ("a", "Ga"),
    ("a", "F(a&Xa)"),
    ("1", "Xa"),
    ("1", "Na"),
    ("1", "a&p|!a&!p"),
    ("a", "pUa"),
    ("1", "XXXXXa"),
];

impl Rule {
    /// A rule out of its parts.
    pub fn new(i: usize, o: usize, condition: &str, text: &[u8]) -> Rule {
        Rule { i, o, condition: condition.into(), text: text.to_vec() }
    }

    /// The number of letters.
    pub fn letters(&self) -> usize {
        1 << (self.i + self.o)
    }

    /// The number of temporal operators, counted by their bytes.
    pub fn operators(&self) -> usize {
        self.text.iter().filter(|byte| b"XNFGUR".contains(byte)).count()
    }
}

/// The readings of small rules.
pub fn readings() -> Vec<Rule> {
    READINGS.iter().map(|(condition, text)| Rule::new(1, 1, condition, text.as_bytes())).collect()
}

/// A published row whose name has one of the beginnings, or nothing if the limits forbid it.
fn row(line: &str, beginnings: &[&str]) -> Option<Rule> {
    let fields: Vec<&str> = line.split('\t').collect();
    let number = |k: usize| fields[k].parse::<usize>().expect("a number in published.tsv");
    let named = beginnings.iter().any(|beginning| fields[0].starts_with(beginning));
    if !named || number(9) > 5 || number(10) > 64 {
        return None;
    }
    Some(Rule::new(number(1), number(2), fields[4], fields[5].as_bytes()))
}

/// The families U and GF of paper 001 and the counters of 002, as far as the limits allow; a row
/// that is there for both modes is taken once.
pub fn published() -> Vec<Rule> {
    let lines = include_str!("../../tests/published.tsv").lines().skip(1);
    let mut rules: Vec<Rule> = lines.filter_map(|line| row(line, &["001 U", "001 GF", "002"])).collect();
    rules.dedup_by(|one, other| one.text == other.text);
    rules
}

/// The largest rules, those of more than 128 states included; with the condition `a`.
pub fn large() -> Vec<Rule> {
    LARGE.iter().map(|&(_, i, o, text)| Rule::new(i, o, "a", text)).collect()
}
