//! Given automata that ask much of a search for the round number in the stable mode (crates/game/src/needs.rt: limits
//! are tried, and for each the needs of the states are lifted one by one until they stand). Only input 0 has the
//! condition; positions stand on a way to the last one, the goal, and their numbers go up or down along it.
//!
//! chain     a step with the condition goes one position on: every need is one more than the next
//! ring      the same without an end: the start, the only goal, is entered again by the n-th step
//! resting   a chain of half the states; then states that need one step, of which each rests, without the condition, on
//!           the one before it, and the first on the chain's head. They are dropped one after the other
//! climbing  the same, but between two that rest stands one that loops under the condition, or goes to the one before it
//!           or to the chain's head. Once the one before it is dropped its need climbs, one at a time, to the head's
//! above     a chain of all states but the start and the goal, on which the last output alone goes one position on and the
//!           others lead to its head; without the condition the goal is entered. All needs but two are above the number, 1
//! crowded   a line on which the last output alone goes one position on; behind its end all states hang on the end, and
//!           every other output leads into that crowd. The start is near the goal, so that the number is small
//!
//! The start is a state beside the way that enters the goal at once, the chain's head, its middle, or the last that
//! rests. In the first case the number is 1 and all else is of no use; at the head the start fails a limit early; in
//! the middle it keeps a need with many limits with which the rest has to be worked out; the last is dropped last of
//! all.

use solver::calls::Given;

/// Where the start is.
#[derive(Clone, Copy, Debug, PartialEq, Eq)]
pub enum Start {
    Beside,
    Head,
    Middle,
    Last,
}

/// An automaton of n states by a law from position, input and output; the positions in order.
fn given(
    n: usize,
    (i, o): (usize, usize),
    start: usize,
    goal: usize,
    law: impl Fn(usize, usize, usize) -> usize,
) -> Given {
    let (inputs, letters) = (1usize << i, 1 << (i + o));
    let moves = (0..n * letters).map(|k| law(k / letters, k % inputs, k % letters / inputs) as u8).collect();
    Given { n, moves, marks: (0..n).map(|s| (s == goal) as u8).collect(), start, mask: 1 }
}

/// The same automaton with its states numbered from the other end.
pub fn turned(given: &Given) -> Given {
    let (n, letters) = (given.n, given.moves.len() / given.n);
    let rows = given.moves.chunks(letters).rev();
    let moves = rows.flatten().map(|&t| (n - 1) as u8 - t).collect();
    let marks = given.marks.iter().rev().copied().collect();
    Given { n, moves, marks, start: n - 1 - given.start, mask: given.mask }
}

/// A chain.
pub fn chain(n: usize, size: (usize, usize)) -> Given {
    given(n, size, 0, n - 1, |s, x, _| if x == 0 { (s + 1).min(n - 1) } else { s })
}

/// A ring.
pub fn ring(n: usize, size: (usize, usize)) -> Given {
    given(n, size, 0, 0, |s, x, _| if x == 0 { (s + 1) % n } else { s })
}

/// A chain of needs above the number.
pub fn above(n: usize, (i, o): (usize, usize)) -> Given {
    let (goal, last) = (n - 1, (1 << o) - 1);
    given(n, (i, o), n - 2, goal, |s, x, y| match s {
        s if s + 3 > n || x != 0 || s + 3 == n && y == last => goal,
        s if y == last => s + 1,
        _ => 0,
    })
}

/// A line of so many states with a crowd behind it; the start is the one with the number r.
pub fn crowded(n: usize, (i, o): (usize, usize), line: usize, r: usize) -> Given {
    let (goal, last) = (n - 1, (1 << o) - 1);
    given(n, (i, o), r, goal, |s, x, y| match s {
        0 => 0,
        s if s == goal || x != 0 => goal,
        1 if y == last => goal,
        s if y == last => (s - 1).min(line),
        _ => n - 2,
    })
}

/// The position of a start, given the last position that rests; the state beside the way stands before the goal.
fn place(n: usize, last: usize, start: Start) -> usize {
    match start {
        Start::Beside => n - 2,
        Start::Head => 0,
        Start::Middle => n / 4,
        Start::Last => last,
    }
}

/// A chain and states that rest.
pub fn resting(n: usize, (i, o): (usize, usize), start: Start) -> Given {
    let (half, goal, plain) = (n / 2, n - 1, (1 << i) - 1);
    given(n, (i, o), place(n, n - 3, start), goal, |s, x, _| match s {
        s if s < half => [goal, if s + 1 < half { s + 1 } else { goal }][(x == 0) as usize],
        s if s < n - 2 && x == plain => [s - 1, 0][(s == half) as usize],
        _ => goal,
    })
}

/// A chain, states that rest and states that climb.
pub fn climbing(n: usize, (i, o): (usize, usize), start: Start) -> Given {
    let (half, goal, plain, outputs) = (n / 2, n - 1, (1 << i) - 1, 1 << o);
    given(n, (i, o), place(n, n - 3, start), goal, |s, x, y| match s {
        s if s < half => [goal, if s + 1 < half { s + 1 } else { goal }][(x == 0) as usize],
        s if s >= n - 2 => goal,
        s if (s - half) % 2 == 0 && x == plain => [s - 1, 0][(s == half) as usize],
        s if (s - half) % 2 == 1 && x == 0 && y == 0 => s,
        s if (s - half) % 2 == 1 && x == 0 && y == outputs - 1 => s - 1,
        s if (s - half) % 2 == 1 && x == 0 => 0,
        _ => goal,
    })
}
