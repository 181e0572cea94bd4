//! The aims, and the rows that fall short of them: the library at most twice the solver's
//! time, and on the largest rules a hundred times as fast as MONA.

use crate::clock::Pair;
use crate::process::Timing;
use crate::table::short;

/// The rows that fall short, in words.
#[derive(Default)]
pub struct Aims {
    solver: Vec<String>,
    mona: Vec<String>,
}

impl Aims {
    /// Notes a row that takes more than twice the solver's time.
    pub fn solver(&mut self, name: &str, pair: Pair) {
        if pair.ratio > 2.0 {
            let Pair { library, solver, ratio } = pair;
            let times = format!("{} µs against {} µs", short(library), short(solver));
            self.solver.push(format!("{name}: {} times the solver ({times})", short(ratio)));
        }
    }

    /// Notes a row in which MONA, its start left out, takes less than a hundred times as long.
    pub fn mona(&mut self, name: &str, timing: Timing, n: usize, classes: usize) {
        if timing.over_net < 100.0 {
            let (over, whole) = (short(timing.over_net), short(timing.over));
            let states = format!("n {n}, minimal {classes}");
            self.mona.push(format!("{name}: MONA takes {over} times as long, {whole} with its start ({states})"));
        }
    }

    /// Prints what falls short.
    pub fn print(&self) {
        for (title, rows) in [("twice the solver", &self.solver), ("a hundred times as fast as MONA", &self.mona)] {
            println!("\n### Short of the aim: {title}\n");
            if rows.is_empty() {
                println!("No row.");
            }
            rows.iter().for_each(|row| println!("- {row}"));
        }
    }
}
