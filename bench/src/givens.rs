//! The tables of given automata: the worst shapes and random ones, in both modes, with the
//! counts of a solver by ranks beside the times.

use crate::aims::Aims;
use crate::cells;
use crate::compare::check_given;
use crate::effort::effort;
use crate::shapes::{crowded, longest, random};
use crate::table::{short, Table};
use crate::timed::time_given;
use solver::calls::{game_of_given, Given};
use solver::Mode;

const HEADS: [&str; 11] =
    ["Shape", "Mode", "n", "Rounds", "Passes", "Looks", "Steps tried", "Library", "Solver", "Ratio", "ns a step"];

const SIZES: [usize; 4] = [16, 32, 64, 128];

/// An automaton of a named shape.
fn automaton(shape: &str, mode: Mode, n: usize, i: usize, o: usize) -> Given {
    match shape {
        "longest" => longest(mode, n, i, o),
        "crowded" => crowded(mode, n, i, o),
        _ => random(n, i, o, 1),
    }
}

/// One row.
fn row(shape: &str, mode: Mode, n: usize, (i, o): (usize, usize), aims: &mut Aims) -> Vec<String> {
    let given = automaton(shape, mode, n, i, o);
    let name = format!("given, {shape}, {mode:?}, n {n}, i {i}, o {o}");
    check_given(&name, i, o, mode, &given);
    let effort = effort(&game_of_given(i, o, mode, &given));
    let pair = time_given(i, o, mode, &given);
    aims.solver(&name, pair);
    let step = pair.library * 1e3 / effort.steps as f64;
    let counts = cells![effort.rounds, effort.passes, effort.looks, effort.steps];
    let times = cells![short(pair.library), short(pair.solver), short(pair.ratio), short(step)];
    [cells![shape, format!("{mode:?}").to_lowercase(), n], counts, times].concat()
}

/// Prints the tables, one for each signature.
pub fn print(aims: &mut Aims) {
    for (i, o) in [(1, 1), (1, 4), (4, 4)] {
        let mut table = Table::new(&HEADS);
        for shape in ["longest", "crowded", "random"] {
            for mode in [Mode::Fair, Mode::Stable] {
                SIZES.iter().for_each(|&n| table.row(row(shape, mode, n, (i, o), aims)));
            }
        }
        table.print(&format!("Given automata, i = {i}, o = {o} (µs)"));
    }
}
