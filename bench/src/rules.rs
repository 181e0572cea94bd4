//! The tables of rules: library and solver in both modes, MONA, and the ratios. MONA's
//! automaton is held against ours for every rule.

use crate::aims::Aims;
use crate::cells;
use crate::compare::{automaton_of, check_rule};
use crate::inputs::Rule;
use crate::language::Held;
use crate::library::Library;
use crate::outside::Runs;
use crate::process::{Timing, TIMEOUT};
use crate::table::{code, short, Table};
use crate::timed::time_rule;
use solver::automaton::{build, Automaton};
use solver::reader::read;
use solver::wording::Wording;
use solver::Mode;

const HEADS: [&str; 15] = [
    "Rule",
    "Condition",
    "i",
    "o",
    "n",
    "Fair: library",
    "solver",
    "ratio",
    "Stable: library",
    "solver",
    "ratio",
    "MONA's states",
    "MONA, ms",
    "MONA over library",
    "without start",
];

/// The rule's automaton: the library's, or for a rule of more than 128 states the solver's.
fn automaton(rule: &Rule, library: Option<Library>) -> Automaton {
    if let Some(library) = library {
        return automaton_of(&library, rule.letters());
    }
    let tree = read(&rule.text, Wording::rule(rule.i, rule.o)).expect("a rule that can be read");
    build(&tree, rule.i, rule.o, 1000).expect("less than a thousand states")
}

/// MONA's cells: states, milliseconds, and how many times as long as the library.
fn mona_cells(held: Option<Held>, timing: Option<Timing>) -> Vec<String> {
    let (Some(held), Some(timing)) = (held, timing) else {
        return cells!["", format!("> {}000", TIMEOUT.as_secs()), "", ""];
    };
    cells![held.classes + 1, short(timing.whole), short(timing.over), short(timing.over_net)]
}

/// One rule's row; `large` rules have an aim against MONA too.
fn row(rule: &Rule, mona: Option<&mut Runs>, large: bool, aims: &mut Aims) -> Vec<String> {
    let library = check_rule(rule, Mode::Fair);
    check_rule(rule, Mode::Stable);
    let ours = automaton(rule, library);
    let n = if ours.n() > 128 { format!("{}: 9", ours.n()) } else { ours.n().to_string() };
    let (fair, stable) = (time_rule(rule, Mode::Fair), time_rule(rule, Mode::Stable));
    let name = code(&rule.text);
    let mut cells = cells![name, code(&rule.condition), rule.i, rule.o, n];
    for (mode, pair) in [("fair", fair), ("stable", stable)] {
        cells.extend(cells![short(pair.library), short(pair.solver), short(pair.ratio)]);
        aims.solver(&format!("{name} {mode}"), pair);
    }
    let Some(mona) = mona else {
        cells.extend(cells!["", "", "", ""]);
        return cells;
    };
    let held = mona.check(rule, &ours);
    let timing = mona.time(rule);
    if let (true, Some(held), Some(timing)) = (large, held, timing) {
        aims.mona(&name, timing, ours.n(), held.classes);
    }
    cells.extend(mona_cells(held, timing));
    cells
}

/// Prints the table of some rules.
pub fn print(title: &str, rules: &[Rule], mut mona: Option<&mut Runs>, large: bool, aims: &mut Aims) {
    let mut table = Table::new(&HEADS);
    for rule in rules {
        table.row(row(rule, mona.as_deref_mut(), large, aims));
    }
    table.print(title);
}
