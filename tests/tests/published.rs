//! Every row of published.tsv. Columns: source, i, o, mode, condition, rule, second rule,
//! the source's answer, states by the specification, operators, nodes. "can" and "cannot" are verdicts of the
//! game; "valid" says that every list satisfies the rule. Rows over the limits are refused by the
//! calls; their states are counted with wide sets, and their games played where n fits.

use solver::automaton::{build, build_wide};
use solver::calls::{game_of, solve_rule};
use solver::game::winners;
use solver::listing::buffers;
use solver::reader::read;
use solver::tree::{condition_mask, Tree};
use solver::wording::Wording;
use solver::Mode;

/// The table of published examples, which lies in this folder.
fn rows() -> Vec<Vec<String>> {
    let path = std::path::Path::new(env!("CARGO_MANIFEST_DIR")).join("published.tsv");
    let text = std::fs::read_to_string(&path).expect("published.tsv in the folder tests");
    text.lines().skip(1).map(|line| line.split('\t').map(String::from).collect()).collect()
}

/// A row's mode.
fn mode(row: &[String]) -> Mode {
    if row[3] == "fair" {
        Mode::Fair
    } else {
        Mode::Stable
    }
}

/// Checks the verdict of a row that fits the limits.
fn check_verdict(row: &[String], i: usize, o: usize, n: usize) {
    let verdict = solve_rule(i, o, mode(row), row[5].as_bytes(), row[4].as_bytes(), &mut buffers(i, o));
    let verdict = verdict.unwrap();
    assert_eq!((verdict.can, verdict.n), (row[7] == "can", n), "{row:?}");
}

/// Checks a row over the limits: its refusal, its count, and its game where n is at most 128.
fn check_wide(row: &[String], tree: &Tree, i: usize, o: usize, n: usize) {
    let refusal = solve_rule(i, o, mode(row), row[5].as_bytes(), row[4].as_bytes(), &mut buffers(i, o)).unwrap_err();
    assert_eq!(refusal.number, if tree.count() > 64 { 5 } else { 6 }, "{row:?}");
    let automaton = build_wide(tree, i, o, 1_000).unwrap();
    assert_eq!(automaton.n(), n, "{row:?}");
    if n <= 128 {
        let condition = read(row[4].as_bytes(), Wording::condition(i)).unwrap();
        let game = game_of(&automaton, i, o, condition_mask(&condition, i), mode(row));
        assert_eq!(winners(&game)[0], row[7] == "can", "{row:?}");
    }
}

#[test]
fn published_rows() {
    let mut served = 0;
    for row in rows() {
        let number = |k: usize| row[k].parse::<usize>().unwrap();
        let (i, o, n) = (number(1), number(2), number(8));
        let tree = read(row[5].as_bytes(), Wording::rule(i, o)).unwrap();
        assert_eq!((tree.operators().len(), tree.count()), (number(9), number(10)), "{row:?}");
        assert!(row[6].is_empty(), "a second rule: {row:?}");
        if number(9) > 5 || number(10) > 64 {
            check_wide(&row, &tree, i, o, n);
            continue;
        }
        let automaton = build(&tree, i, o, 10_000).unwrap();
        assert_eq!(automaton.n(), n, "{row:?}");
        match row[7].as_str() {
            "can" | "cannot" => check_verdict(&row, i, o, n),
            answer => {
                let valid = automaton.moves.iter().all(|&t| automaton.goals[t]);
                assert_eq!(valid, answer == "valid", "{row:?}");
            }
        }
        served += 1;
    }
    assert!(served >= 25, "only {served} rows fit");
}
