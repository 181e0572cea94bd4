//! The least stack under which the program answers as it does without a limit, by trying
//! `ulimit -s` in steps of 8 KB down from 256, with an empty environment.

use crate::cells;
use crate::compare::differ;
use crate::table::Table;
use solver::large::LARGE;
use std::io::Write;
use std::process::{Command, Stdio};

/// The largest stack that is tried, which has to suffice for everything, and the step; in KB.
const MOST: usize = 256;
const STEP: usize = 8;

/// How often a limit has to do: where the stack begins is partly random.
const TIMES: usize = 10;

/// What the program prints under a stack limit, or nothing if it does not end well.
fn answer(program: &str, limit: &str, input: &str) -> Option<Vec<u8>> {
    let mut command = Command::new("/bin/sh");
    command.args(["-c", "ulimit -s \"$0\" && exec \"$1\"", limit, program]).env_clear();
    command.stdin(Stdio::piped()).stdout(Stdio::piped()).stderr(Stdio::null());
    let mut child = command.spawn().expect("a shell can be started");
    // A program that ended early does not read its input; the answer tells.
    let _ = child.stdin.take().expect("a pipe").write_all(input.as_bytes());
    let output = child.wait_with_output().expect("the shell can be waited for");
    output.status.success().then_some(output.stdout)
}

/// The inputs: what they are, and the four lines.
fn inputs() -> Vec<(&'static str, String)> {
    let deep = format!("{}a{}", "(".repeat(127), ")".repeat(127));
    let large = std::str::from_utf8(LARGE[0].3).expect("plain text");
    vec![
        ("`Fa`", "1 0\nfair\n1\nFa\n".to_string()),
        ("128 states, i = o = 4", format!("4 4\nfair\na\n{large}\n")),
        ("127 parentheses inside one another, rule", format!("1 0\nfair\n1\n{deep}\n")),
        ("the same, condition too", format!("1 0\nstable\n{deep}\n{deep}\n")),
    ]
}

/// The least limit from which on every step up to `MOST` gives the right answer every time.
fn least(program: &str, name: &str, input: &str) -> usize {
    let free = answer(program, "unlimited", input).or_else(|| answer(program, "8192", input));
    let works = |limit: usize| (0..TIMES).all(|_| free.is_some() && answer(program, &limit.to_string(), input) == free);
    if !works(MOST) {
        differ(&format!("{name}: {program} needs more than {MOST} KB of stack"));
    }
    let mut least = MOST;
    while least > STEP && works(least - STEP) {
        least -= STEP;
    }
    least
}

/// Prints the table for the program.
pub fn print(program: &str) {
    let mut table = Table::new(&["Input of the program", "Least `ulimit -s`", "Under `ulimit -s 256`"]);
    for (name, input) in inputs() {
        table.row(cells![name, least(program, name, &input), "answers"]);
    }
    table.print("Stack (KB)");
}
