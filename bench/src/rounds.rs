//! The tables of the round number: library and solver on automata on which the search for it has much to do.

use crate::aims::Aims;
use crate::cells;
use crate::compare::check_given;
use crate::table::{short, Table};
use crate::timed::time_given;
use crate::ways::{above, chain, climbing, crowded, resting, ring, turned, Start};
use solver::calls::Given;
use solver::Mode;

const HEADS: [&str; 7] = ["Shape", "Start", "Numbers", "r", "Library", "Solver", "Ratio"];

/// The number of states.
const STATES: usize = 128;

/// The automata, with the names of their shapes and starts.
fn automata(size: (usize, usize)) -> Vec<(&'static str, &'static str, Given)> {
    let mut automata = vec![("chain", "head", chain(STATES, size)), ("ring", "goal", ring(STATES, size))];
    let starts = [("beside", Start::Beside), ("head", Start::Head), ("middle", Start::Middle), ("last", Start::Last)];
    for (name, start) in starts {
        automata.push(("resting", name, resting(STATES, size, start)));
        automata.push(("climbing", name, climbing(STATES, size, start)));
    }
    automata.push(("above", "beside", above(STATES, size)));
    for (name, line, r) in [("of 16, near", 16, 4), ("of 16, middle", 16, 8), ("of 64, near", 64, 16)] {
        automata.push(("crowded", name, crowded(STATES, size, line, r)));
    }
    automata
}

/// One row.
fn row(shape: &str, start: &str, order: &str, given: &Given, (i, o): (usize, usize), aims: &mut Aims) -> Vec<String> {
    let name = format!("round number, {shape}, start {start}, {order}, i {i}, o {o}");
    let verdict = check_given(&name, i, o, Mode::Stable, given);
    let pair = time_given(i, o, Mode::Stable, given);
    aims.solver(&name, pair);
    cells![shape, start, order, verdict.round, short(pair.library), short(pair.solver), short(pair.ratio)]
}

/// Prints the tables, one for each signature.
pub fn print(aims: &mut Aims) {
    for size in [(0, 4), (1, 4), (4, 4)] {
        let mut table = Table::new(&HEADS);
        for (shape, start, given) in automata(size) {
            table.row(row(shape, start, "up", &given, size, aims));
            table.row(row(shape, start, "down", &turned(&given), size, aims));
        }
        table.print(&format!("The round number, stable, n = {STATES}, i = {}, o = {} (µs)", size.0, size.1));
    }
}
