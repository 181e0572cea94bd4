//! Library and solver on one input: the answers are compared before anything is timed. Any
//! difference ends the run with exit code 1.

use crate::inputs::Rule;
use crate::library::Library;
use solver::automaton::Automaton;
use solver::calls::{solve_given, solve_rule, Buffers, Given, Verdict};
use solver::listing::buffers;
use solver::Mode;

/// Ends the run: something differs that must not.
pub fn differ(what: &str) -> ! {
    println!("\nDIFFERENCE: {what}");
    std::process::exit(1)
}

/// The automaton in the library's buffers.
pub fn automaton_of(library: &Library, letters: usize) -> Automaton {
    let moves = library.moves[..library.n * letters].iter().map(|&t| t as usize).collect();
    Automaton { letters, moves, goals: library.marks[..library.n].iter().map(|&mark| mark != 0).collect() }
}

/// Compares number, verdict, n, round number, automaton and tables with the solver's. Hands back the library's buffers;
/// nothing if both refuse with the same number.
pub fn check_rule(rule: &Rule, mode: Mode) -> Option<Library> {
    let Rule { i, o, .. } = *rule;
    let mut library = Library::new(i, o);
    library.solve_rule(i, o, mode, &rule.text, &rule.condition);
    let mut buffers = buffers(i, o);
    let wanted = solve_rule(i, o, mode, &rule.text, &rule.condition, &mut buffers);
    let name = format!("{mode:?} {}", String::from_utf8_lossy(&rule.text));
    if library.moves != buffers.moves || library.marks != buffers.marks {
        differ(&format!("{name}: moves or marks"));
    }
    same_tables(&name, &library, &buffers.station, &buffers.outside);
    let verdict = match wanted {
        Err(refusal) if refusal.number == library.number => return None,
        Ok(verdict) if library.number == 0 => verdict,
        _ => differ(&format!("{name}: the library answers {}, the solver {wanted:?}", library.number)),
    };
    let told = Verdict { can: library.can == 1, n: library.n, round: library.round };
    if told != verdict {
        differ(&format!("{name}: {told:?}, wanted {verdict:?}"));
    }
    Some(library)
}

/// Asks for n with no buffers and compares number and n with the solver's. Hands back n, or 0 where both refuse otherwise.
pub fn check_asking(rule: &Rule, mode: Mode) -> usize {
    let Rule { i, o, .. } = *rule;
    let mut library = Library::empty();
    library.solve_rule(i, o, mode, &rule.text, &rule.condition);
    let wanted = solve_rule(i, o, mode, &rule.text, &rule.condition, &mut Buffers::default());
    let told = wanted.map_err(|refusal| (refusal.number, refusal.needed.unwrap_or(0)));
    if told != Err((library.number, library.n)) {
        let name = String::from_utf8_lossy(&rule.text);
        differ(&format!("{name}, asked for n: {} with {}, wanted {told:?}", library.number, library.n));
    }
    library.n
}

/// Compares both tables, byte for byte.
fn same_tables(name: &str, library: &Library, station: &[u8], outside: &[u8]) {
    if library.station != station || library.outside != outside {
        differ(&format!("{name}: the tables"));
    }
}

/// Compares the verdict and the tables on a given automaton with the solver's. Hands back the verdict.
pub fn check_given(name: &str, i: usize, o: usize, mode: Mode, given: &Given) -> Verdict {
    let mut library = Library::new(i, o);
    let (mut station, mut outside) = (library.station.clone(), library.outside.clone());
    library.solve_given(i, o, mode, given);
    let wanted = solve_given(i, o, mode, given, &mut station, &mut outside);
    let told = Verdict { can: library.can == 1, n: given.n, round: library.round };
    if library.number != 0 || wanted != Ok(told) {
        differ(&format!("{name}: number {} and {told:?}, wanted {wanted:?}", library.number));
    }
    same_tables(name, &library, &station, &outside);
    told
}
