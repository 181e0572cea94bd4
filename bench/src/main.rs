//! The library, the independent solver and MONA on the same inputs, side by side, printed
//! as Markdown. Exit code 1 if their answers differ. The argument is the program `airtable`.
//!
//! clock, timed      interleaved samples and their medians; the calls that are timed
//! library, compare  the C interface; library and solver give the same answers
//! inputs, families  rules; shapes, effort  given automata and what they ask of a solver by ranks; ways  others, for the
//!                   round number
//! mona, process, listing, language, outside  MONA: translation, runs, what it prints, is it the same
//! rules, asking, givens, rounds, growth, stack  the parts; aims, table  what falls short, and the printing

mod aims;
mod asking;
mod clock;
mod compare;
mod effort;
mod families;
mod givens;
mod growth;
mod inputs;
mod language;
mod library;
mod listing;
mod mona;
mod outside;
mod process;
mod rounds;
mod rules;
mod shapes;
mod stack;
mod table;
mod timed;
mod ways;

use aims::Aims;
use outside::Runs;

/// Runs all parts.
fn main() {
    let mut mona = Runs::new();
    let mut aims = Aims::default();
    let groups = [
        ("Readings (µs)", inputs::readings(), false),
        ("Published families (µs)", inputs::published(), false),
        ("The largest rules (µs)", inputs::large(), true),
    ];
    for (title, rules, large) in groups {
        rules::print(title, &rules, mona.as_mut(), large, &mut aims);
    }
    match mona {
        Some(ref mut runs) => runs.print(),
        None => println!("\nMONA is not installed here; its columns are empty."),
    }
    asking::print(&inputs::large());
    givens::print(&mut aims);
    rounds::print(&mut aims);
    growth::print();
    if let Some(program) = std::env::args().nth(1) {
        stack::print(&program);
    }
    aims.print();
}
