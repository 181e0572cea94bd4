//! MONA's automaton held against ours, for every list of letters at once: a walk over the
//! pairs of states that some list reaches. And the count: MONA's is minimal, so it has as many
//! states as ours has classes, with its own state 0 in addition.

use crate::listing::{Listing, Mark};
use solver::automaton::Automaton;
use std::collections::{BTreeMap, BTreeSet};

/// What a check found: pairs walked, and classes of our automaton.
#[derive(Clone, Copy, Debug)]
pub struct Held {
    pub pairs: usize,
    pub classes: usize,
}

/// Walks all pairs that a non-empty list reaches; each has to agree on whether the list satisfies.
fn walk(ours: &Automaton, mona: &Listing) -> Result<usize, String> {
    let letters = ours.letters;
    let mut seen = BTreeSet::new();
    let mut waiting = vec![(0, mona.start)];
    while let Some((s, m)) = waiting.pop() {
        for letter in 0..letters {
            let pair = (ours.moves[s * letters + letter], mona.moves[m * letters + letter]);
            if !seen.insert(pair) {
                continue;
            }
            let wanted = if ours.goals[pair.0] { Mark::Accepting } else { Mark::Rejecting };
            if mona.marks[pair.1] != wanted {
                return Err(format!(
                    "our state {} is {wanted:?}, MONA's {} is {:?}",
                    pair.0, pair.1, mona.marks[pair.1]
                ));
            }
            waiting.push(pair);
        }
    }
    Ok(seen.len())
}

/// The number of classes of states that no list tells apart (Moore): classes are split by their
/// moves until no more is split. The start stands before any position and takes MONA's mark.
fn classes(ours: &Automaton, start: Mark) -> usize {
    let mark = |s: usize| if ours.goals[s] { Mark::Accepting } else { Mark::Rejecting };
    let mut class: Vec<usize> = (0..ours.n()).map(|s| if s == 0 { start } else { mark(s) } as usize).collect();
    let mut count = 0;
    loop {
        let mut numbers = BTreeMap::new();
        let mut next = vec![];
        for s in 0..ours.n() {
            let moves = ours.moves[s * ours.letters..(s + 1) * ours.letters].iter().map(|&t| class[t]);
            let key: Vec<usize> = [class[s]].into_iter().chain(moves).collect();
            let fresh = numbers.len();
            next.push(*numbers.entry(key).or_insert(fresh));
        }
        if numbers.len() == count {
            return count;
        }
        count = numbers.len();
        class = next;
    }
}

/// Checks language and count. Our start is never entered again, so its mark is its own.
pub fn check(ours: &Automaton, mona: &Listing) -> Result<Held, String> {
    if ours.moves.contains(&0) {
        return Err("a move leads to the start".into());
    }
    let held = Held { pairs: walk(ours, mona)?, classes: classes(ours, mona.marks[mona.start]) };
    if held.classes + 1 != mona.states {
        return Err(format!("{} classes of {} states, and MONA has {}", held.classes, ours.n(), mona.states));
    }
    Ok(held)
}
