//! The round number of a start: small automata by hand, and all tables of small automata. tests/numbers.rs holds it to
//! plays.

mod small;

use small::{game, small_game};
use solver::chance::Chance;
use solver::game::{winners, Board, Game};
use solver::judge::judge;
use solver::longest::{edges_from, most_in_a_row, most_marked, Edge};
use solver::numbers::needs;
use solver::tables::build;
use solver::Mode::*;

/// The round number, its tables judged.
fn number(game: &Game, start: usize) -> usize {
    let wins = winners(game);
    let tables = build(game, start);
    assert_eq!(judge(game, start, tables.round, &tables.station, &tables.outside), Ok(wins));
    tables.round
}

#[test]
fn two_steps_with_the_condition() {
    // 0 to 1 to the goal 2; no inputs and no outputs, the condition holds always.
    for mode in [Fair, Stable] {
        let chain = game(mode, (0, 0, 3), &[2], |s, _, _| (s + 1).min(2));
        assert_eq!([0, 1, 2].map(|start| number(&chain, start)), [2, 1, 1]);
    }
}

#[test]
fn as_many_steps_as_states() {
    // A ring in which only state 0 is a goal: from 0 it is entered again by the last of n steps.
    for mode in [Fair, Stable] {
        for n in [1, 2, 5, 128] {
            assert_eq!(number(&game(mode, (0, 0, n), &[0], |s, _, _| (s + 1) % n), 0), n);
        }
    }
}

#[test]
fn zero_where_the_outside_wins() {
    for mode in [Fair, Stable] {
        let stuck = game(mode, (1, 1, 3), &[1], |s, _, _| [1, 1, 2][s]);
        assert_eq!([0, 1, 2].map(|start| number(&stuck, start)), [1, 1, 0]);
    }
}

#[test]
fn stable_counts_steps_in_a_row() {
    // Input 0 has the condition. 0 and 2 go on by it and wait without; 1 goes on without it, and by it enters the goal,
    // 4, as 3 does. So the outside has the condition twice before a goal, at 0 and 2, but never twice in a row.
    let law = |s: usize, x: usize, _: usize| match (s, x) {
        (0 | 2, 0) => s + 1,
        (0 | 2, _) => s,
        (1, 1) => 2,
        (3, 1) => 3,
        _ => 4,
    };
    let [fair, stable] = [Fair, Stable].map(|mode| number(&game(mode, (1, 0, 5), &[4], law), 0));
    assert_eq!((fair, stable), (3, 2));
}

/// From state 0 a step without the condition leads to 1 (output 0) or to 3 (output 1), as the station likes; one with
/// it enters the goal, 5. From 1 the goal is four steps with the condition away, and from 3 two; without it nothing
/// changes.
fn two_ways() -> Game {
    game(Stable, (1, 1, 6), &[5], |s, x, y| match (s, x, y) {
        (0, 1, 0) => 1,
        (0, 1, _) => 3,
        (1 | 3, 0, _) => s + 1,
        (2, 0, _) => 3,
        (4, 0, _) => 5,
        (0, ..) => 5,
        _ => s,
    })
}

#[test]
fn a_table_by_two_numbers() {
    let game = two_ways();
    assert_eq!([0, 1, 2, 3, 4, 5].map(|start| number(&game, start)), [2, 4, 3, 2, 1, 1]);
    // States 1 and 2 are won, but have no need for 2: their rows are chosen for n.
    assert_eq!(needs(&Board::new(&game), 2), [Some(1), None, None, Some(2), Some(1), Some(1)]);
    assert_eq!(needs(&Board::new(&game), 6), [1, 4, 3, 2, 1, 1].map(Some));
    let mut table = build(&game, 0);
    assert_eq!(table.station[..2], [0, 1]);
    assert!(judge(&game, 0, 2, &table.station, &table.outside).is_ok());
    // The other output is as good for n, and loses 2.
    table.station[1] = 0;
    assert!(judge(&game, 0, 2, &table.station, &table.outside).is_err());
    assert!(judge(&game, 0, 4, &table.station, &table.outside).is_ok());
}

/// The k-th table of a game, if tables are numbered.
fn table(game: &Game, k: usize) -> Vec<usize> {
    (0..game.n * game.inputs()).map(|at| k / game.outputs().pow(at as u32) % game.outputs()).collect()
}

/// The number that a table keeps from a state, if it keeps one.
fn kept(game: &Game, table: &[usize], start: usize) -> Option<usize> {
    let mut edges = vec![];
    for (at, &y) in table.iter().enumerate() {
        let (s, x) = (at / game.inputs(), at % game.inputs());
        let t = game.step(s, x, y);
        if !game.goals[t] {
            edges.push(Edge { from: s, to: t, marked: game.condition(x) });
        }
    }
    let edges = edges_from(game.n, &edges, start);
    let most = if game.mode == Fair { most_marked(game.n, &edges) } else { most_in_a_row(game.n, &edges) };
    most.map(|most| most + 1)
}

#[test]
fn the_best_table_keeps_the_round_number() {
    let mut chance = Chance::new(12, 0, 0);
    let mut counts = [0; 6];
    for _ in 0..4_000 {
        let game = small_game(&mut chance, 5);
        let start = chance.below(game.n);
        let tables = game.outputs().pow((game.n * game.inputs()) as u32);
        let best = (0..tables).filter_map(|k| kept(&game, &table(&game, k), start)).min();
        let wanted = build(&game, start).round;
        assert_eq!(best.unwrap_or(0), wanted, "{game:?}");
        counts[wanted] += 1;
    }
    assert!(counts.iter().all(|&count| count > 2), "{counts:?}");
}
