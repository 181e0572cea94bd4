//! The calls that are timed, each with its own buffers, which are there before the clock
//! starts. What the solver allocates inside its call is part of its time.

use crate::clock::{pair, Pair};
use crate::inputs::Rule;
use crate::library::Library;
use solver::calls::{solve_given, solve_rule, Given};
use solver::listing::buffers;
use solver::Mode;
use std::hint::black_box;

/// A call ready to be timed.
pub type Call<'a> = Box<dyn FnMut() + 'a>;

/// The library's whole call for a rule.
pub fn library_rule(rule: &Rule, mode: Mode) -> Call<'_> {
    let Rule { i, o, .. } = *rule;
    let mut library = Library::new(i, o);
    Box::new(move || {
        library.solve_rule(i, o, mode, black_box(&rule.text), black_box(&rule.condition));
        black_box(&library.number);
    })
}

/// The library's call for a rule with no buffers, which asks for n.
pub fn library_asking(rule: &Rule, mode: Mode) -> Call<'_> {
    let Rule { i, o, .. } = *rule;
    let mut library = Library::empty();
    Box::new(move || {
        library.solve_rule(i, o, mode, black_box(&rule.text), black_box(&rule.condition));
        black_box(&library.n);
    })
}

/// The solver's whole call for a rule.
pub fn solver_rule(rule: &Rule, mode: Mode) -> Call<'_> {
    let Rule { i, o, .. } = *rule;
    let mut buffers = buffers(i, o);
    Box::new(move || {
        let _ = black_box(solve_rule(i, o, mode, black_box(&rule.text), black_box(&rule.condition), &mut buffers));
    })
}

/// The library's call for a given automaton.
pub fn library_given(i: usize, o: usize, mode: Mode, given: &Given) -> Call<'_> {
    let mut library = Library::new(i, o);
    Box::new(move || {
        library.solve_given(i, o, mode, black_box(given));
        black_box(&library.can);
    })
}

/// The solver's call for a given automaton.
pub fn solver_given(i: usize, o: usize, mode: Mode, given: &Given) -> Call<'_> {
    let (mut station, mut outside) = (vec![0; given.n << i], vec![0; given.n]);
    Box::new(move || {
        let _ = black_box(solve_given(i, o, mode, black_box(given), &mut station, &mut outside));
    })
}

/// Library and solver on a rule, side by side.
pub fn time_rule(rule: &Rule, mode: Mode) -> Pair {
    pair(library_rule(rule, mode), solver_rule(rule, mode))
}

/// Library and solver on a given automaton, side by side.
pub fn time_given(i: usize, o: usize, mode: Mode, given: &Given) -> Pair {
    pair(library_given(i, o, mode, given), solver_given(i, o, mode, given))
}
