//! Asking for n: the library's call with no buffers beside the whole call, on the same rule in fair mode.

use crate::cells;
use crate::clock::{median, samples};
use crate::compare::check_asking;
use crate::inputs::Rule;
use crate::table::{code, short, Table};
use crate::timed::{library_asking, library_rule};
use solver::Mode;

const HEADS: [&str; 6] = ["Rule", "i", "o", "n", "Asking", "of the whole call"];

/// Prints the table of some rules; those of more than 128 states, which are refused either way, are left out.
pub fn print(rules: &[Rule]) {
    let mut table = Table::new(&HEADS);
    for rule in rules {
        let n = check_asking(rule, Mode::Fair);
        if n == 0 {
            continue;
        }
        let taken = samples(vec![library_asking(rule, Mode::Fair), library_rule(rule, Mode::Fair)]);
        let part = median(taken[0].iter().zip(&taken[1]).map(|(asking, whole)| asking / whole).collect());
        table.row(cells![code(&rule.text), rule.i, rule.o, n, short(median(taken[0].clone())), short(part)]);
    }
    table.print("Asking for n (µs)");
}
