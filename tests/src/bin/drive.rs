//! Runs the built program `airtable` over seeded inputs on its standard input and compares
//! its standard output, byte for byte, with the solver's listing. Standard error stays empty, but where
//! the program cannot read or write: that is tried first, then the files named on the command line.
//!
//!   drive PATH_TO_AIRTABLE [--seed N] [--times K] [FILE.rule ..]

use solver::chance::Chance;
use solver::conditions::{met_once, unmet_condition};
use solver::large::LARGE;
use solver::listing::airtable;
use solver::makers::{any_condition, any_text, damaged, good_condition, row_rule, rule_text};
use std::collections::BTreeMap;
use std::fs::File;
use std::io::Write;
use std::process::{Command, Output, Stdio};

/// Inputs by hand: the readings of the specification, the printed example, round numbers, shapes that are no four lines.
const BY_HAND: &[&[u8]] = &[
    b"1 0\nfair\n1\nFa\n",
    b"1 1\nfair\n1\nFp\n",
    b"1 1\nfair\n1\nFa\n",
    b"1 1\nfair\na\nFa\n",
    b"1 1\nfair\n0\nFa\n",
    b"1 1\nstable\na\nGa\n",
    b"1 1\nfair\na\nF(a&Xa)\n",
    b"1 1\nstable\na\nF(a&Xa)\n",
    b"1 1\nfair\n1\nXa\n",
    b"1 1\nfair\n1\nNa\n",
    b"1 1\nfair\n1\na&p|!a&!p\n",
    b"1 1\nfair\na\npUa\n",
    b"1 1\nfair\na\nF(a&XFa)\n",
    b"1 1\nfair\na\nF(a&X(a|F(a&XFa)))\n",
    b"1 1\nstable\na\nF(a&X(a|F(a&XFa)))\n",
    b"1 1\nstable\na\n!p&F(a&X(a&Xa))|p&F(a&Xa)\n",
    b"1 2\nstable\na\n(qUp)RX(!p)&(!q)\n",
    b"1 1\nstable\na\np|X(!p&F(a&Xa)|p&(!a|X1))\n",
    b"1 1\nfair\n1\nXXXXXa\n",
    b"1 1\nfair\n1\nXXXXXXa\n",
    b"1 1\nfair\n1\n\n",
    b"1 1\nfair\n\n\n",
    b"1 1\nfair\n\nFa\n",
    b"4 4\nfair\n1\nF((a|Gp)&(b|Gq)&(c|Gr)&(d|Gs))\n",
    b"4 4\nfair\n1\n((Gp|a)&(a>c))U((b|Gq)&(c|Gr)&(r|Gs))\n",
    b"4 4\nstable\na|b\n((Gp|a)&(a>c))U((b|Gq)&(c|Gr)&(r|Gs))\n",
    b"",
    b"\n",
    b"\n\n\n\n",
    b"1 1",
    b"1 1\nfair\n1\nFp",
    b"1 1\nfair\n1\nFp\n\n",
    b"1 1\nfair\n1\nFp\n ",
    b"1 1\nfair\n1\n",
    b"1 1\nFAIR\n1\nFp\n",
    b"1 1\nfair \n1\nFp\n",
    b" 1 1\nfair\n1\nFp\n",
    b"1  1\nfair\n1\nFp\n",
    b"11\nfair\n1\nFp\n",
    b"1 1 \nfair\n1\nFp\n",
    b"01 1\nfair\n1\nFp\n",
    b"5 1\nfair\n1\nFp\n",
    b"1 9\nstable\n1\nFp\n",
    b"10 1\nfair\n1\nFp\n",
    b"-1 1\nfair\n1\nFp\n",
    b"+1 1\nfair\n1\nFp\n",
    b"a 1\nfair\n1\nFp\n",
    b"1\t1\nfair\n1\nFp\n",
    b"1 1\r\nfair\n1\nFp\n",
    b"1 1\nfair\r\n1\nFp\n",
    b"1 1\nfair\n1\r\nFp\n",
    b"1 1\nfair\n1\nFp\r\n",
    b"1 1\nfair\np\nFp\n",
    b"1 1\nfair\nXa\nFp\n",
    b"1 1\nfair\naUa\nFp\n",
    b"0 0\nfair\n1\nF1\n",
    b"0 0\nstable\n0\n0\n",
    b"0 0\nstable\n1\n0\n",
    b"0 0\nfair\n!1\n1\n",
    b"1 1\nstable\na&!a\nFp\n",
    b"1 1\nfair\n!(a>a)\n\n",
    b"2 1\nfair\n(a|b)&!a&!b\nFp\n",
    b"2 1\nfair\n(a|b)&!a&b\nFp\n",
    b"4 4\nfair\n 0 \nF((a|Gp)&(b|Gq)&(c|Gr)&(d|Gs))\n",
    b"5 1\nfair\n0\nFp\n",
    b"0 4\nfair\n1\nF(p&q&r&s)\n",
    b"4 0\nstable\na&b\nF(a&c)\n",
    b"0 0\nfair\na\n1\n",
    b"1 1\nfair\n1\nFp\xff\n",
    b"1 1\nfair\n1\n\xc3\xa4\n",
    b"1 1\nfair\n1\nF\x00p\n",
    b"1 1\n\n1\nFp\n",
];

/// Sizes of four lines, each with the bytes behind them: about 2,048 in all, and far above.
const SIZES: &[(usize, &[u8])] =
    &[(2047, b""), (2047, b" "), (2048, b""), (2048, b" "), (2048, b"\n"), (2049, b""), (2050, b""), (100_000, b"")];

/// Four lines of that size, and bytes behind them.
fn sized_input(size: usize, behind: &[u8]) -> Vec<u8> {
    let mut bytes = b"1 1\nfair\n1\np".to_vec();
    bytes.resize(size - 1, b' ');
    bytes.push(b'\n');
    [&bytes, behind].concat()
}

/// An input of some length with both ends of the limits; sometimes a byte too many behind four lines.
fn long_input(chance: &mut Chance) -> Vec<u8> {
    let size = chance.pick(&[266, 268, 1000, 2046, 2047, 2048, 2048, 2048, 2048, 2049, 2050, 5000]);
    sized_input(size, if chance.one_in(3) { b" " } else { b"" })
}

/// Texts at the limits: 64 nodes or 65, 255 bytes or 256, five operators or six; sometimes both
/// texts at once.
fn limit_input(chance: &mut Chance) -> Vec<u8> {
    let at_limit = |chance: &mut Chance, prefix: u8| {
        let mut text = vec![prefix; chance.pick(&[3, 5, 6, 63, 64])];
        text.push(b'a');
        if chance.one_in(3) {
            text.resize(chance.pick(&[255, 256]), b' ');
        }
        text
    };
    let prefix = chance.pick(b"!!X");
    let (rule, condition) = (at_limit(chance, prefix), at_limit(chance, b'!'));
    let rule = if chance.one_in(2) { b"Fp".to_vec() } else { rule };
    let mode = chance.pick(&[&b"fair"[..], b"stable"]);
    [b"1 1\n", mode, b"\n", &condition, b"\n", &rule, b"\n"].concat()
}

/// A rule with about 128 states.
fn large_input(chance: &mut Chance) -> Vec<u8> {
    let (_, i, o, rule) = chance.pick(LARGE);
    let mode = chance.pick(&[&b"fair"[..], b"stable"]);
    let condition = good_condition(chance, i);
    [format!("{i} {o}\n").as_bytes(), mode, b"\n", &condition, b"\n", rule, b"\n"].concat()
}

/// A condition that no input number meets, or one alone, with a rule of any kind, also one with about 128 states.
fn unmet_input(chance: &mut Chance) -> Vec<u8> {
    let (i, o) = (chance.below(5), chance.below(3));
    let any = any_text(chance, i, o);
    let (i, o, rule) = chance.pick(&[(i, o, &b"F1"[..]), (i, o, &any), (4, 4, LARGE[0].3), (4, 4, LARGE[1].3)]);
    let condition = if chance.one_in(4) { met_once(chance, i) } else { unmet_condition(chance, i) };
    let mode = chance.pick(&[&b"fair"[..], b"stable"]);
    [format!("{i} {o}\n").as_bytes(), mode, b"\n", &condition, b"\n", rule, b"\n"].concat()
}

/// Four good lines.
fn good_input(chance: &mut Chance) -> Vec<u8> {
    let most = chance.pick(&[1, 2, 2, 3]);
    let (i, o) = (chance.below(most + 1), chance.below(most + 1));
    let size = chance.between(1, 16);
    let mode = chance.pick(&[&b"fair"[..], b"stable"]);
    let condition = good_condition(chance, i);
    let rule = rule_text(chance, i, o, size, 4);
    [format!("{i} {o}\n").as_bytes(), mode, b"\n", &condition, b"\n", &rule, b"\n"].concat()
}

/// A rule in the stable mode on which the states' needs differ.
fn row_input(chance: &mut Chance) -> Vec<u8> {
    let (i, o) = (chance.between(1, 2), chance.between(1, 2));
    let rule = row_rule(chance, i, o);
    [format!("{i} {o}\nstable\na\n").as_bytes(), &rule, b"\n"].concat()
}

/// Four lines of any kind.
fn any_input(chance: &mut Chance) -> Vec<u8> {
    let (i, o) = (chance.below(7), chance.below(7));
    let (i, o) = (if i > 4 { i } else { i.min(2) }, if o > 4 { o } else { o.min(2) });
    let mode = chance.pick(&[&b"fair"[..], b"stable", b"stable", b"fair", b"Fair", b""]);
    let (condition, rule) = (any_condition(chance, i), any_text(chance, i, o));
    [format!("{i} {o}\n").as_bytes(), mode, b"\n", &condition, b"\n", &rule, b"\n"].concat()
}

/// The k-th input.
fn input(chance: &mut Chance, k: usize) -> Vec<u8> {
    if let Some(bytes) = BY_HAND.get(k) {
        return bytes.to_vec();
    }
    if let Some((size, behind)) = SIZES.get(k - BY_HAND.len()) {
        return sized_input(*size, behind);
    }
    match chance.below(14) {
        0 => long_input(chance),
        10 => limit_input(chance),
        11 => large_input(chance),
        12 => row_input(chance),
        13 => unmet_input(chance),
        1 => {
            let good = good_input(chance);
            damaged(chance, good)
        }
        2 | 3 => any_input(chance),
        _ => good_input(chance),
    }
}

/// Runs the program on an input and hands back what it prints, on standard output and on standard error.
fn run(program: &str, bytes: &[u8]) -> Result<Output, String> {
    let mut child = Command::new(program)
        .stdin(Stdio::piped())
        .stdout(Stdio::piped())
        .stderr(Stdio::piped())
        .spawn()
        .map_err(|error| format!("cannot start {program}: {error}"))?;
    let mut stdin = child.stdin.take().expect("a pipe");
    // The program may stop reading early; that is no fault of the input.
    let _ = stdin.write_all(bytes);
    drop(stdin);
    child.wait_with_output().map_err(|error| error.to_string())
}

/// Runs the program where it cannot read (a directory) and where it cannot write (a full device). It
/// says so on standard error and prints nothing.
fn try_failures(program: &str) {
    let open = |name: &str| Stdio::from(File::options().read(true).open(name).expect(name));
    let full = || Stdio::from(File::options().write(true).open("/dev/full").expect("/dev/full"));
    let cases = [
        (open("/"), Stdio::piped(), "airtable: cannot read standard input\n"),
        (open("/dev/null"), full(), "airtable: cannot write standard output\n"),
    ];
    for (input, output, message) in cases {
        let ended = Command::new(program).stdin(input).stdout(output).stderr(Stdio::piped()).output();
        let ended = ended.unwrap_or_else(|error| panic!("cannot start {program}: {error}"));
        if !ended.stdout.is_empty() || ended.stderr != message.as_bytes() {
            println!("DIFFERENCE in a failure: {ended:?} in place of {message:?}");
            std::process::exit(1);
        }
    }
}

/// Compares a listing and hands back its kind, the verdict or the refusal. Nothing stands on standard error.
fn compare(bytes: &[u8], text: &[u8], error: &[u8]) -> Result<String, String> {
    if !error.is_empty() {
        return Err(format!("standard error has \"{}\"", error.escape_ascii()));
    }
    let wanted = airtable(bytes);
    if text != wanted {
        return Err("the listings differ".into());
    }
    let words = if wanted.starts_with(b"refused") { 2 } else { 1 };
    Ok(String::from_utf8_lossy(&wanted).split(' ').take(words).collect::<Vec<_>>().join(" "))
}

/// The value after a word of the command line, or a default.
fn option(word: &str, default: u64) -> u64 {
    let words: Vec<String> = std::env::args().collect();
    let at = words.iter().position(|other| other == word);
    at.map_or(default, |k| words[k + 1].parse().expect("a number"))
}

/// The files of the command line, by name.
fn files() -> Vec<(String, Vec<u8>)> {
    let named = std::env::args().skip(2).filter(|word| word.ends_with(".rule"));
    named.map(|name| (name.clone(), std::fs::read(&name).unwrap_or_else(|error| panic!("{name}: {error}")))).collect()
}

/// Runs the program on one input and hands back the kind of its answer; ends with 1 at a difference.
fn tried(program: &str, name: &str, bytes: &[u8]) -> String {
    let Output { stdout: text, stderr: error, .. } = run(program, bytes).unwrap_or_else(|what| panic!("{what}"));
    compare(bytes, &text, &error).unwrap_or_else(|what| {
        println!("DIFFERENCE in {name}: {what}");
        println!("input   \"{}\"", bytes.escape_ascii());
        println!("printed \"{}\"", text.escape_ascii());
        println!("solver  \"{}\"", airtable(bytes).escape_ascii());
        std::process::exit(1);
    })
}

/// Runs all inputs; prints the first difference and ends with 1, or the counts.
fn main() {
    let usage = "usage: drive PATH_TO_AIRTABLE [--seed N] [--times K] [FILE.rule ..]";
    let program = std::env::args().nth(1).expect(usage);
    let (seed, times) = (option("--seed", 1), option("--times", 1));
    let mut counts = BTreeMap::new();
    try_failures(&program);
    for (name, bytes) in files() {
        *counts.entry(tried(&program, &name, &bytes)).or_insert(0) += 1;
    }
    for k in 0..600 * times {
        let bytes = input(&mut Chance::new(seed, 0, k), k as usize);
        let name = format!("input {k} of seed {seed}");
        *counts.entry(tried(&program, &name, &bytes)).or_insert(0) += 1;
    }
    for (kind, count) in counts {
        println!("{count:9}  {kind}");
    }
    println!("no difference, seed {seed}");
}
