//! Calls the library (through its C functions) and the solver on many seeded inputs and compares
//! everything that a call hands back or writes, byte for byte. As a second look, which takes no number of
//! a state from the solver, tables are judged by the plays that follow them.
//!
//!   compare [--seed N] [--times K] [--kind NAME [--case C]]
//!
//! Each case has its own generator made from seed, kind and case number, so that any case can be
//! run again alone. On the first difference it prints the input and ends with 1.

mod capi;
mod common;
mod follows;
mod givens;
mod listed;
mod plays;
mod rules;
mod sources;
mod tally;
mod trials;
mod unmet;

use solver::chance::Chance;
use std::sync::atomic::{AtomicU64, AtomicUsize, Ordering};
use tally::Tally;

/// A kind of case: its name, how many there are by default, and what one does.
struct Kind {
    name: &'static str,
    count: u64,
    run: Run,
}

/// A case made by chance alone, or one out of a list by its number (the rest by chance).
enum Run {
    Random(fn(&mut Chance, &mut Tally) -> Result<(), String>),
    Listed(fn(u64, &mut Chance, &mut Tally) -> Result<(), String>),
}

use Run::*;

const KINDS: [Kind; 26] = [
    Kind { name: "readings", count: sources::READINGS_COUNT, run: Listed(sources::reading) },
    Kind { name: "published", count: sources::PUBLISHED_COUNT, run: Listed(sources::published) },
    Kind { name: "trial-short", count: listed::SHORT_TEXTS, run: Listed(listed::short_text) },
    Kind { name: "trial-bytes", count: listed::BYTES_IN_PLACES, run: Listed(listed::byte_in_place) },
    Kind { name: "trial-lengths", count: 301 * 40, run: Listed(listed::text_of_length) },
    Kind { name: "trial-any", count: 120_000, run: Random(trials::any) },
    Kind { name: "trial-good", count: 40_000, run: Random(trials::good) },
    Kind { name: "rule-texts", count: 60_000, run: Random(rules::texts) },
    Kind { name: "rule-games", count: 15_000, run: Random(rules::games) },
    Kind { name: "rule-plays", count: 6_000, run: Random(plays::rule_plays) },
    Kind { name: "rule-faults", count: 30_000, run: Random(rules::faults) },
    Kind { name: "rule-buffers", count: 8_000, run: Random(rules::buffers) },
    Kind { name: "rule-large", count: 800, run: Random(rules::large) },
    Kind { name: "given-tiny", count: listed::TINY_GAMES, run: Listed(listed::tiny_game) },
    Kind { name: "given-small", count: 50_000, run: Random(givens::small) },
    Kind { name: "given-large", count: 2_500, run: Random(givens::large) },
    Kind { name: "given-faults", count: 40_000, run: Random(givens::faults) },
    Kind { name: "follow-plays", count: 10_000, run: Random(follows::plays) },
    Kind { name: "follow-random", count: 80_000, run: Random(follows::random) },
    Kind { name: "given-rounds", count: 30_000, run: Random(givens::rounds) },
    Kind { name: "given-outsides", count: 15_000, run: Random(givens::outsides) },
    Kind { name: "rule-rows", count: 15_000, run: Random(rules::rows) },
    Kind { name: "rule-many", count: 800, run: Random(rules::many) },
    Kind { name: "given-buffers", count: 8_000, run: Random(givens::buffers) },
    Kind { name: "rule-unmet", count: 20_000, run: Random(unmet::rules) },
    Kind { name: "given-unmet", count: 20_000, run: Random(unmet::givens) },
];

/// Where the run stands, for the message after a crash inside the library.
static SEED: AtomicU64 = AtomicU64::new(0);
static KIND: AtomicUsize = AtomicUsize::new(0);
static CASE: AtomicU64 = AtomicU64::new(0);

extern "C" {
    fn signal(number: i32, handler: usize) -> usize;
    fn alarm(seconds: u32) -> u32;
    fn _exit(code: i32) -> !;
}

/// How to run the present case again.
fn again() -> String {
    let kind = KINDS[KIND.load(Ordering::Relaxed)].name;
    format!("--seed {} --kind {kind} --case {}", SEED.load(Ordering::Relaxed), CASE.load(Ordering::Relaxed))
}

/// Says which case crashed; called by the system on an abort, a fault, or after too long a time.
extern "C" fn crashed(number: i32) {
    let what = if number == ALARM { "TOO LONG (over two minutes)" } else { "CRASH" };
    println!("{what} (signal {number}) in the case {}", again());
    unsafe { _exit(1) }
}

/// The signal of the alarm.
const ALARM: i32 = 14;

/// Lets crashes, panics (the library's may come here too) and endless cases be told with their case.
fn watch() {
    for number in [4, 6, 7, 8, 11, ALARM] {
        unsafe { signal(number, crashed as *const () as usize) };
    }
    std::panic::set_hook(Box::new(|info| {
        println!("PANIC in the case {}\n{info}", again());
        unsafe { _exit(1) }
    }));
}

/// The command line.
struct Options {
    seed: u64,
    times: u64,
    kind: Option<String>,
    case: Option<u64>,
}

/// Reads the command line.
fn options() -> Options {
    let mut options = Options { seed: 1, times: 1, kind: None, case: None };
    let mut words = std::env::args().skip(1);
    while let Some(word) = words.next() {
        let value = words.next().unwrap_or_else(|| panic!("{word} needs a value"));
        let number = || value.parse().unwrap_or_else(|_| panic!("{word} needs a number"));
        match word.as_str() {
            "--seed" => options.seed = number(),
            "--times" => options.times = number(),
            "--case" => options.case = Some(number()),
            "--kind" => options.kind = Some(value),
            _ => panic!("unknown word {word}"),
        }
    }
    options
}

/// Runs one case; on a difference prints it and ends the program.
fn run_case(kind: usize, seed: u64, case: u64, tally: &mut Tally) {
    KIND.store(kind, Ordering::Relaxed);
    CASE.store(case, Ordering::Relaxed);
    unsafe { alarm(120) };
    let mut chance = Chance::new(seed, kind as u64 + 1, case);
    let answer = match KINDS[kind].run {
        Random(run) => run(&mut chance, tally),
        Listed(run) => run(case, &mut chance, tally),
    };
    if let Err(what) = answer {
        println!("DIFFERENCE in the case {}\n{what}", again());
        std::process::exit(1);
    }
}

/// Prints the counts at the end.
fn report(tally: &Tally) {
    for (what, count) in &tally.counts {
        println!("{count:9}  {what}");
    }
}

/// Runs all kinds, or the one that was asked for.
fn main() {
    let options = options();
    let known = |name: &String| KINDS.iter().any(|kind| kind.name == name);
    assert!(options.kind.iter().all(known), "unknown kind");
    SEED.store(options.seed, Ordering::Relaxed);
    watch();
    let mut tally = Tally::default();
    for (k, kind) in KINDS.iter().enumerate() {
        if options.kind.as_deref().is_some_and(|name| name != kind.name) {
            continue;
        }
        let begun = std::time::Instant::now();
        let cases = options.case.map_or(0..kind.count * options.times, |case| case..case + 1);
        let count = cases.end - cases.start;
        cases.for_each(|case| run_case(k, options.seed, case, &mut tally));
        println!("{count:9}  cases of {} in {:.1} s", kind.name, begun.elapsed().as_secs_f64());
    }
    report(&tally);
    println!("no difference, seed {}", options.seed);
}
