//! Graphs to draw: of the examples, and of larger rules.

use crate::cases::{self, of_lines};
use desk::case::Case;
use desk::picture::{Arrow, Graph, Node};
use desk::play::graph_within;
use solver::chance::Chance;
use std::collections::BTreeSet;

/// A graph with a name.
pub struct Named {
    pub name: String,
    pub graph: Graph,
}

/// The graph of a case, with all states of the losing side that are one wrong command away.
fn graph(case: &Case) -> Graph {
    graph_within(case, usize::MAX)
}

/// The graph of a rule.
fn rule(inputs: usize, outputs: usize, mode: &str, condition: &str, rule: &[u8]) -> Graph {
    let rule = std::str::from_utf8(rule).unwrap();
    graph(&of_lines(&format!("{inputs} {outputs}\n{mode}\n{condition}\n{rule}\n")).case)
}

/// The graphs of the examples.
pub fn examples() -> Vec<Named> {
    cases::examples().into_iter().map(|subject| Named { name: subject.name, graph: graph(&subject.case) }).collect()
}

/// Graphs of the examples, of large rules, of random ones, and made-up ones.
pub fn all() -> Vec<Named> {
    let mut list = examples();
    for (k, mode, condition) in LARGE {
        let (_, i, o, text) = solver::large::LARGE[*k];
        list.push(Named { name: format!("large-{k}-{condition}"), graph: rule(i, o, mode, condition, text) });
    }
    for (seed, condition) in SEEDS {
        list.push(Named { name: format!("rich-{seed}"), graph: seeded(*seed, condition) });
    }
    for (n, more) in [(6, 4), (12, 8), (24, 12), (40, 60), (60, 30), (60, 120)] {
        for wide in [false, true] {
            list.push(Named { name: format!("made-{n}-{more}-{wide}"), graph: made(n, more, wide) });
        }
    }
    list
}

/// Large rules whose graphs have some states: their places in the list, with modes and conditions.
const LARGE: &[(usize, &str, &str)] = &[
    (0, "fair", "a"),
    (8, "fair", "a"),
    (8, "fair", "a&b"),
    (11, "fair", "a&b"),
    (13, "fair", "a&b"),
    (14, "fair", "a"),
    (16, "stable", "a"),
];

/// Random rules, with conditions: 38, 48, 36 and 35 states, and some small ones.
const SEEDS: &[(u64, &str)] =
    &[(960, "a"), (13915, "1"), (12167, "1"), (20106, "1"), (3, "a"), (5, "a"), (7, "1"), (15, "a")];

/// The graph of a random rule.
fn seeded(seed: u64, condition: &str) -> Graph {
    let mut chance = Chance::new(1, 1, seed);
    let (i, o) = (chance.between(1, 4), chance.between(1, 4));
    let text = solver::makers::rich_rule(&mut chance, i, o);
    rule(i, o, "fair", condition, &text)
}

/// A random graph of n states, all of them reached from state 0, with more arrows; texts are long if `wide`.
pub fn made(n: usize, more: usize, wide: bool) -> Graph {
    let mut chance = Chance::new(n as u64, more as u64, wide as u64);
    let last = |state: usize| state % 9 == 8 || state % 7 == 6;
    let mut ends = BTreeSet::new();
    for to in 1..n {
        let before: Vec<usize> = (0..to).rev().filter(|from| !last(*from)).take(5).collect();
        ends.insert((chance.pick(&before), to));
    }
    for _ in 0..more {
        let from = chance.below(n);
        ends.insert((from, (from + chance.below(9)).saturating_sub(4).min(n - 1)));
    }
    let node = |state: usize| Node { state, start: state == 0, goal: state % 9 == 8, lost: state % 7 == 6 };
    let mut arrow = |(from, to): (usize, usize)| {
        let count = if wide { chance.between(1, 8) } else { 1 };
        let line = |chance: &mut Chance| {
            "cue & !feed | news & (mic | !cue) / break deck bed relay"[..if wide { chance.between(10, 56) } else { 11 }]
                .to_string()
        };
        let lines = (0..count).map(|_| line(&mut chance)).collect();
        let stray = to % 7 == 6;
        Arrow { from, to, lines: if stray { vec![] } else { lines }, stray }
    };
    let arrows = ends.into_iter().filter(|ends| !last(ends.0)).map(&mut arrow).collect();
    Graph { nodes: (0..n).map(node).collect(), arrows }
}
