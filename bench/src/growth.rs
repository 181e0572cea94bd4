//! Growth of the automaton's time. A rule is called in fair mode under the condition `1`,
//! so that a few passes end the game; what the game and the tables take is timed by the call
//! for a given automaton on the same automaton and under the same condition, and taken off.

use crate::cells;
use crate::clock::{median, samples};
use crate::compare::check_rule;
use crate::families;
use crate::inputs::Rule;
use crate::table::{code, short, Table};
use crate::timed::{library_given, library_rule, solver_given, solver_rule, Call};
use solver::calls::Given;
use solver::conditions::met_by;
use solver::Mode;

const HEADS: [&str; 11] = [
    "Rule",
    "i",
    "o",
    "Operators",
    "n",
    "n × L",
    "Library",
    "of which game, tables",
    "Automaton, ns for each n × L",
    "Exponent",
    "Solver, ns for each n × L",
];

/// A rule with its automaton, ready for the call for given automata.
struct Member<'a> {
    rule: &'a Rule,
    given: Given,
}

/// Median microseconds of a member's four calls.
struct Times {
    library: f64,
    library_game: f64,
    solver: f64,
    solver_game: f64,
}

impl Member<'_> {
    /// A rule's automaton from the library, which the solver agrees with.
    fn new(rule: &Rule) -> Member<'_> {
        let library = check_rule(rule, Mode::Fair).expect("a family within the limits");
        let (n, start, mask) = (library.n, 0, met_by(&rule.condition, rule.i));
        let moves = library.moves[..n * rule.letters()].to_vec();
        Member { rule, given: Given { n, moves, marks: library.marks[..n].to_vec(), start, mask } }
    }

    /// The four calls: library and solver, for the rule and for its automaton.
    fn calls(&self) -> [Call<'_>; 4] {
        let Rule { i, o, .. } = *self.rule;
        let game = library_given(i, o, Mode::Fair, &self.given);
        let other = solver_given(i, o, Mode::Fair, &self.given);
        [library_rule(self.rule, Mode::Fair), game, solver_rule(self.rule, Mode::Fair), other]
    }

    /// n × L.
    fn size(&self) -> f64 {
        (self.given.n * self.rule.letters()) as f64
    }
}

impl Times {
    /// Medians out of the samples of the four calls.
    fn new(samples: &[Vec<f64>]) -> Times {
        let middle = |k: usize| median(samples[k].clone());
        Times { library: middle(0), library_game: middle(1), solver: middle(2), solver_game: middle(3) }
    }

    /// The library's time for the automaton alone.
    fn automaton(&self) -> f64 {
        self.library - self.library_game
    }
}

/// The slope between two members in a log-log diagram; nothing where their sizes are equal.
fn exponent(before: (&Member, &Times), now: (&Member, &Times)) -> Option<f64> {
    let sizes = now.0.size() / before.0.size();
    (sizes != 1.0).then(|| (now.1.automaton() / before.1.automaton()).ln() / sizes.ln())
}

/// Prints the table of one family; all its calls take turns, so that its rows can be compared.
fn print_family(title: &str, rules: &[Rule]) {
    let members: Vec<Member> = rules.iter().map(Member::new).collect();
    let samples = samples(members.iter().flat_map(Member::calls).collect());
    let times: Vec<Times> = samples.chunks(4).map(Times::new).collect();
    let mut table = Table::new(&HEADS);
    for (k, (member, time)) in members.iter().zip(&times).enumerate() {
        let Rule { i, o, ref text, .. } = *member.rule;
        let before = k.checked_sub(1).map(|k| (&members[k], &times[k]));
        let slope = before.and_then(|before| exponent(before, (member, time)));
        let each = |microseconds: f64| short(microseconds * 1e3 / member.size());
        let mut cells = cells![code(text), i, o, member.rule.operators(), member.given.n, member.size()];
        cells.extend(cells![short(time.library), short(time.library_game), each(time.automaton())]);
        cells.extend(cells![slope.map(short).unwrap_or_default(), each(time.solver - time.solver_game)]);
        table.row(cells);
    }
    table.print(title);
}

/// Prints all families.
pub fn print() {
    print_family("Growth with the states (µs)", &families::states());
    print_family("Growth with the letters (µs)", &families::letters());
    print_family("Growth with the operators, same states (µs)", &families::operators());
    print_family("Growth with the operators, states doubling (µs)", &families::untils());
}
