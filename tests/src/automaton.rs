//! The automaton of the specification: vectors with one bit a coordinate, states as sets of vectors in
//! a 64-bit word, discovery breadth first with letters ascending. `build_wide` does the same with
//! ordered sets for any count of operators; it checks the other and serves published rules that
//! are over the specification's limits.

use crate::tree::Tree;
use crate::wording::name_holds;
use std::collections::{BTreeSet, HashMap};
use std::hash::Hash;

/// The states reachable from the start, in order of discovery.
#[derive(Clone, Debug)]
pub struct Automaton {
    pub letters: usize,
    pub moves: Vec<usize>,
    pub goals: Vec<bool>,
}

/// A rule with the coordinate of each temporal operator (0 for every other node).
struct Coordinates<'a> {
    tree: &'a Tree,
    i: usize,
    of: Vec<usize>,
    count: usize,
}

impl Coordinates<'_> {
    /// Gives the temporal operators their coordinates 1, 2, .. in the order of their bytes.
    fn new(tree: &Tree, i: usize) -> Coordinates<'_> {
        let operators = tree.operators();
        let mut of = vec![0; tree.count()];
        for (k, &node) in operators.iter().enumerate() {
            of[node] = k + 1;
        }
        Coordinates { tree, i, of, count: operators.len() + 1 }
    }

    /// A node's value, given a letter and the vector of the next position.
    fn value(&self, node: usize, letter: usize, next: usize) -> bool {
        let kids = &self.tree.nodes[node].kids;
        let kid = |k: usize| self.value(kids[k], letter, next);
        let bit = next >> self.of[node] & 1 == 1;
        match self.tree.nodes[node].mark {
            b'0' => false,
            b'1' => true,
            b'!' => !kid(0),
            b'&' => kid(0) && kid(1),
            b'|' => kid(0) || kid(1),
            b'>' => !kid(0) || kid(1),
            b'X' | b'N' => bit,
            b'U' => kid(1) || (kid(0) && bit),
            b'R' => kid(1) && (kid(0) || bit),
            b'F' => kid(0) || bit,
            b'G' => kid(0) && bit,
            name => name_holds(name, self.i, letter),
        }
    }

    /// The vector of the present position, from a letter and the next position's vector.
    fn before(&self, letter: usize, next: usize) -> usize {
        let mut vector = self.value(self.tree.root, letter, next) as usize;
        for (node, &coordinate) in self.of.iter().enumerate() {
            if coordinate > 0 {
                let told = match self.tree.nodes[node].mark {
                    b'X' | b'N' => self.tree.nodes[node].kids[0],
                    _ => node,
                };
                vector |= (self.value(told, letter, next) as usize) << coordinate;
            }
        }
        vector
    }

    /// The vector that stands after the last position: 1 for N, R and G, 0 for all else.
    fn end(&self) -> usize {
        let marks = self.of.iter().enumerate().filter(|(_, &coordinate)| coordinate > 0);
        marks
            .filter(|(node, _)| b"NRG".contains(&self.tree.nodes[*node].mark))
            .map(|(_, &coordinate)| 1 << coordinate)
            .sum()
    }

    /// The word of the vectors whose coordinate 0 is 1.
    fn start(&self) -> u64 {
        (0..1usize << self.count).filter(|v| v & 1 == 1).map(|v| 1u64 << v).sum()
    }
}

/// The state after a letter: it holds v exactly when the old one holds what the letter makes of v.
fn after(old: u64, makes: &[usize]) -> u64 {
    let mut new = 0;
    for (v, &made) in makes.iter().enumerate() {
        new |= (old >> made & 1) << v;
    }
    new
}

/// For each letter and vector, the vector that the letter makes from it.
fn makes_table(coordinates: &Coordinates, letters: usize) -> Vec<Vec<usize>> {
    let vectors = 1usize << coordinates.count;
    let row = |letter| (0..vectors).map(|v| coordinates.before(letter, v)).collect();
    (0..letters).map(row).collect()
}

/// Numbers the states by first discovery, breadth first, letters ascending; nothing if more than
/// `most` are reachable. `after` says where the k-th letter leads.
fn discover<S: Clone + Eq + Hash>(
    start: S,
    letters: usize,
    most: usize,
    after: impl Fn(&S, usize) -> S,
    goal: impl Fn(&S) -> bool,
) -> Option<Automaton> {
    let mut states = vec![start.clone()];
    let mut numbers = HashMap::from([(start, 0)]);
    let mut moves = vec![];
    let mut s = 0;
    while s < states.len() {
        for letter in 0..letters {
            let state = after(&states[s], letter);
            let fresh = states.len();
            let number = *numbers.entry(state.clone()).or_insert(fresh);
            if number == fresh {
                states.push(state);
            }
            moves.push(number);
        }
        if states.len() > most {
            return None;
        }
        s += 1;
    }
    let goals = states.iter().map(goal).collect();
    Some(Automaton { letters, moves, goals })
}

/// Builds the automaton; nothing if more than `most` states are reachable.
/// The tree may have at most five temporal operators.
pub fn build(tree: &Tree, i: usize, o: usize, most: usize) -> Option<Automaton> {
    let coordinates = Coordinates::new(tree, i);
    let letters = 1usize << (i + o);
    let makes = makes_table(&coordinates, letters);
    let end = coordinates.end();
    let goal = |word: &u64| word >> end & 1 == 1;
    discover(coordinates.start(), letters, most, |word, letter| after(*word, &makes[letter]), goal)
}

/// The same with ordered sets of vectors, for any count of operators.
pub fn build_wide(tree: &Tree, i: usize, o: usize, most: usize) -> Option<Automaton> {
    let coordinates = Coordinates::new(tree, i);
    let letters = 1usize << (i + o);
    let makes = makes_table(&coordinates, letters);
    let vectors = 1usize << coordinates.count;
    let start: BTreeSet<usize> = (0..vectors).filter(|v| v & 1 == 1).collect();
    let after = |old: &BTreeSet<usize>, letter: usize| -> BTreeSet<usize> {
        (0..vectors).filter(|&v| old.contains(&makes[letter][v])).collect()
    };
    let end = coordinates.end();
    discover(start, letters, most, after, |state| state.contains(&end))
}

impl Automaton {
    /// The number of states.
    pub fn n(&self) -> usize {
        self.goals.len()
    }
}
