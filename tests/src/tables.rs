//! Both tables, each byte by its rule (specification, "Tables") over the numbers of the states.

use crate::game::{winners, Board, Game};
use crate::numbers::{counts, distances, needs, rounds, start_needs, Numbers};
use crate::Mode;

/// The two tables of a game, n states' share each; 255 where the other side wins. And the round number of the start,
/// 0 where the outside wins it.
#[derive(Clone, Debug, PartialEq, Eq)]
pub struct Tables {
    pub station: Vec<u8>,
    pub outside: Vec<u8>,
    pub round: usize,
}

/// The lowest output that enters a goal, or a state whose number is smaller than `own` (with the condition) or at most
/// `most` (without it).
fn output(game: &Game, numbers: &Numbers, (own, most): (usize, usize), s: usize, x: usize) -> u8 {
    let fits = |number: usize| if game.condition(x) { number < own } else { number <= most };
    let serves = |y: &usize| {
        let t = game.step(s, x, *y);
        game.goals[t] || numbers[t].is_some_and(fits)
    };
    (0..game.outputs()).find(serves).expect("a state with a number has an output") as u8
}

/// The lowest input after which every output enters no goal and a state that passes a test.
fn input(game: &Game, s: usize, test: impl Fn(usize, usize) -> bool) -> u8 {
    let serves = |x: &usize| {
        (0..game.outputs()).all(|y| {
            let t = game.step(s, *x, y);
            !game.goals[t] && test(*x, t)
        })
    };
    (0..game.inputs()).find(serves).expect("a state with a number has an input") as u8
}

/// The station's table out of a row for each state that it wins.
fn station_table(game: &Game, row: impl Fn(usize) -> Option<Vec<u8>>) -> Vec<u8> {
    (0..game.n).flat_map(|s| row(s).unwrap_or(vec![255; game.inputs()])).collect()
}

/// The station's row by numbers, for a state that has one; `most` is made out of it.
fn row(game: &Game, numbers: &Numbers, most: impl Fn(usize) -> usize, s: usize) -> Option<Vec<u8>> {
    let own = numbers[s]?;
    Some((0..game.inputs()).map(|x| output(game, numbers, (own, most(own)), s, x)).collect())
}

/// The station's table when stable: a state with a need for m by the needs for m, another by those for n.
pub fn station_by_needs(game: &Game, (m, near): (usize, &Numbers), far: &Numbers) -> Vec<u8> {
    station_table(game, |s| row(game, near, |_| m, s).or_else(|| row(game, far, |_| game.n, s)))
}

/// The outside's table when stable.
fn outside_by_counts(game: &Game, counts: &Numbers) -> Vec<u8> {
    let byte = |s: usize| match counts[s] {
        None => 255,
        Some(own) => input(game, s, |x, t| {
            counts[t].is_some_and(|count| if game.condition(x) { count <= own } else { count < own })
        }),
    };
    (0..game.n).map(byte).collect()
}

/// The outside's table when fair.
fn outside_by_distances(game: &Game, distances: &Numbers) -> Vec<u8> {
    let byte = |s: usize| match distances[s] {
        None => 255,
        Some(own) => input(game, s, |x, t| distances[t].is_some_and(|distance| game.condition(x) || distance < own)),
    };
    (0..game.n).map(byte).collect()
}

/// The numbers of a side, which has one for exactly the states that it wins.
fn held(numbers: Numbers, wins: &[bool], side: bool) -> Numbers {
    assert!((0..wins.len()).all(|s| numbers[s].is_some() == (wins[s] == side)), "a side has the wrong numbers");
    numbers
}

/// Both tables when fair.
fn fair(board: &Board, wins: &[bool], start: usize) -> Tables {
    let rounds = held(rounds(board), wins, true);
    let distances = held(distances(board, wins), wins, false);
    Tables {
        station: station_table(board.game, |s| row(board.game, &rounds, |own| own, s)),
        outside: outside_by_distances(board.game, &distances),
        round: rounds[start].unwrap_or(0),
    }
}

/// Both tables when stable.
fn stable(board: &Board, wins: &[bool], start: usize) -> Tables {
    let (game, n) = (board.game, board.game.n);
    let far = held(needs(board, n), wins, true);
    let outside = outside_by_counts(game, &held(counts(board), wins, false));
    if !wins[start] {
        return Tables { station: station_by_needs(game, (n, &far), &far), outside, round: 0 };
    }
    let (round, near) = start_needs(board, start);
    Tables { station: station_by_needs(game, (round, &near), &far), outside, round }
}

/// Builds both tables for a start. Who wins each state is found first, by each side's own fixpoint.
pub fn build(game: &Game, start: usize) -> Tables {
    let (board, wins) = (Board::new(game), winners(game));
    match game.mode {
        Mode::Fair => fair(&board, &wins, start),
        Mode::Stable => stable(&board, &wins, start),
    }
}
