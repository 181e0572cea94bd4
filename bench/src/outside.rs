//! MONA over a whole run: its automaton held against ours for the measured rules and for
//! random ones, which is a check of the library from outside, and what its start costs.

use crate::clock::median;
use crate::compare::{automaton_of, check_rule, differ};
use crate::inputs::Rule;
use crate::language::{check, Held};
use crate::listing::parse;
use crate::mona::translate;
use crate::process::{Mona, Timing};
use crate::table::{code, short};
use crate::timed::library_rule;
use solver::automaton::Automaton;
use solver::chance::Chance;
use solver::makers::rule_text;
use solver::Mode;

/// How many random rules are tried.
const RANDOM: u64 = 400;

/// MONA with what its runs found: the times of empty runs, rules held, pairs of states walked.
pub struct Runs {
    mona: Mona,
    empty: Vec<f64>,
    rules: usize,
    pairs: usize,
}

/// A random rule with up to five temporal operators over up to three inputs and outputs.
fn random_rule(case: u64) -> Rule {
    let mut chance = Chance::new(1, 2, case);
    let (i, o, size) = (chance.between(1, 3), chance.between(1, 3), chance.between(3, 14));
    Rule::new(i, o, "1", &rule_text(&mut chance, i, o, size, 5))
}

impl Runs {
    /// MONA, if it is installed.
    pub fn new() -> Option<Runs> {
        Some(Runs { mona: Mona::find()?, empty: vec![], rules: 0, pairs: 0 })
    }

    /// Holds MONA's automaton against ours; nothing if MONA takes too long.
    pub fn check(&mut self, rule: &Rule, ours: &Automaton) -> Option<Held> {
        let listing = parse(&self.mona.listing(&translate(rule))?, rule);
        let held = check(ours, &listing);
        let held = held.unwrap_or_else(|what| differ(&format!("MONA, {}: {what}", code(&rule.text))));
        self.rules += 1;
        self.pairs += held.pairs;
        Some(held)
    }

    /// Times MONA on a rule, beside the library's call in fair mode.
    pub fn time(&mut self, rule: &Rule) -> Option<Timing> {
        let timing = self.mona.time(&translate(rule), library_rule(rule, Mode::Fair))?;
        self.empty.push(timing.empty);
        Some(timing)
    }

    /// Holds MONA's automaton against the library's for random rules, prints what held and the start.
    pub fn print(&mut self) {
        let start = short(median(self.empty.clone()));
        println!("\nMONA's start, an empty run: {start} ms (median).");
        let measured = self.rules;
        for rule in (0..RANDOM).map(random_rule) {
            if let Some(library) = check_rule(&rule, Mode::Fair) {
                self.check(&rule, &automaton_of(&library, rule.letters()));
            }
        }
        let random = self.rules - measured;
        println!("MONA's automaton has the same language as ours for {measured} measured and {random} random rules");
        println!("({} pairs of states walked), and as many states as ours has classes, plus 1.", self.pairs);
    }
}
