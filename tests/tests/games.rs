//! The games: the solver's own tables before the judge on random automata, the judge's
//! teeth on spoiled tables, and the automaton against the meaning of rules.

use solver::automaton::{build, build_wide};
use solver::chance::Chance;
use solver::game::{winners, Game};
use solver::judge::judge;
use solver::longest::{edges_from, most_in_a_row, most_marked, Edge};
use solver::makers::{game_shape, rule_text};
use solver::meaning::satisfies;
use solver::reader::read;
use solver::tables::build as tables;
use solver::wording::Wording;
use solver::Mode;

/// A random game of at most `most` states.
fn random_game(chance: &mut Chance, most: usize) -> Game {
    let (i, o) = (chance.below(3), chance.below(3));
    let n = chance.between(1, most);
    let mode = if chance.one_in(2) { Mode::Fair } else { Mode::Stable };
    let (moves, marks) = game_shape(chance, i, o, n);
    let mask = chance.draw() as u16 & ((1u32 << (1 << i)) - 1) as u16;
    let goals = marks.iter().map(|&mark| mark != 0).collect();
    Game { i, o, n, moves: moves.iter().map(|&t| t as usize).collect(), goals, mask, mode }
}

#[test]
fn tables_pass_the_judge() {
    let mut chance = Chance::new(5, 0, 0);
    let mut won = [0, 0];
    for _ in 0..3_000 {
        let game = random_game(&mut chance, 12);
        let start = chance.below(game.n);
        let tables = tables(&game, start);
        let wins = judge(&game, start, tables.round, &tables.station, &tables.outside).unwrap();
        assert_eq!(wins, winners(&game));
        wins.iter().for_each(|&win| won[win as usize] += 1);
    }
    assert!(won[0] > 3_000 && won[1] > 3_000, "{won:?}");
}

/// Plays by the letter of demand 3, for small games: whether some play from `s` that follows the
/// station table and enters no goal comes to a bad byte or to `most` condition steps (in a row).
fn station_beaten(game: &Game, station: &[u8], s: usize, count: usize, most: usize, depth: usize) -> bool {
    if count == most {
        return true;
    }
    if depth == 0 {
        return false;
    }
    (0..game.inputs()).any(|x| {
        let y = station[s * game.inputs() + x] as usize;
        if y >= game.outputs() {
            return true;
        }
        let t = game.step(s, x, y);
        let kept = if game.mode == Mode::Fair { count } else { 0 };
        let count = if game.condition(x) { count + 1 } else { kept };
        !game.goals[t] && station_beaten(game, station, t, count, most, depth - 1)
    })
}

/// The same for the outside table: a goal entered, a bad byte, or n steps without the condition.
fn outside_beaten(game: &Game, outside: &[u8], s: usize, count: usize, depth: usize) -> bool {
    let x = outside[s] as usize;
    if count == game.n {
        return true;
    }
    if depth == 0 {
        return false;
    }
    if x >= game.inputs() {
        return true;
    }
    let kept = if game.mode == Mode::Stable { count } else { 0 };
    let count = if game.condition(x) { kept } else { count + 1 };
    (0..game.outputs()).any(|y| {
        let t = game.step(s, x, y);
        game.goals[t] || outside_beaten(game, outside, t, count, depth - 1)
    })
}

/// A copy of a table with one of its own bytes changed to another in range.
fn spoil(chance: &mut Chance, table: &[u8], range: usize) -> Vec<u8> {
    let mut table = table.to_vec();
    let own: Vec<usize> = (0..table.len()).filter(|&k| table[k] != 255).collect();
    if !own.is_empty() {
        let k = chance.pick(&own);
        table[k] = chance.below(range) as u8;
    }
    table
}

#[test]
fn the_judge_agrees_with_plays_one_by_one() {
    let mut chance = Chance::new(6, 0, 0);
    let (mut bad, mut short) = (0, 0);
    for _ in 0..8_000 {
        let mut game = random_game(&mut chance, 3);
        game.i = game.i.min(1);
        game.o = game.o.min(1);
        game.mask &= (1 << (1 << game.i)) - 1;
        let start = chance.below(game.n);
        let good = tables(&game, start);
        let station = spoil(&mut chance, &good.station, game.outputs());
        let outside = spoil(&mut chance, &good.outside, game.inputs());
        let wins = winners(&game);
        let depth = game.n * game.n + 1;
        let from_any = (0..game.n).any(|s| match wins[s] {
            true => station_beaten(&game, &station, s, 0, game.n, depth),
            false => outside_beaten(&game, &outside, s, 0, depth),
        });
        let from_start = wins[start] && station_beaten(&game, &station, start, 0, good.round, depth);
        bad += from_any as usize;
        short += (from_start && !from_any) as usize;
        let judged = judge(&game, start, good.round, &station, &outside);
        assert_eq!(judged.is_err(), from_any || from_start, "{game:?} {station:?} {outside:?}");
    }
    assert!(bad > 500 && short > 15, "{bad} {short}");
}

#[test]
fn hollow_and_blank_tables_fail() {
    // Chain 0 -> 1 -> 2 (goal) with output 1; output 0 stays. i = 0, o = 1.
    let game = Game {
        i: 0,
        o: 1,
        n: 3,
        moves: vec![0, 1, 1, 2, 2, 2],
        goals: vec![false, false, true],
        mask: 1,
        mode: Mode::Fair,
    };
    assert_eq!(judge(&game, 0, 2, &[1, 1, 0], &[255; 3]), Ok(vec![true; 3]));
    assert!(judge(&game, 0, 2, &[1, 0, 0], &[255; 3]).is_err());
    assert!(judge(&game, 0, 2, &[255; 3], &[255; 3]).is_err());
    assert!(judge(&game, 0, 2, &[255; 3], &[0; 3]).is_err());
    assert!(judge(&game, 0, 2, &[1, 1, 2], &[255; 3]).is_err());
    for round in [0, 1] {
        assert!(judge(&game, 0, round, &[1, 1, 0], &[255; 3]).is_err(), "two steps are needed");
        assert_eq!(judge(&game, 1, round, &[1, 1, 0], &[255; 3]).is_ok(), round == 1);
    }
}

#[test]
fn a_table_that_keeps_only_n_from_the_start_fails() {
    // The start, 0, has a way to the goal, 3, in one step (output 1) and one over 1 and 2, where input 1 lacks the
    // condition and stays. i = o = 1.
    let law = |s: usize, x: usize, y: usize| match (s, x, y) {
        (0, _, 1) => 3,
        (1 | 2, 1, _) => s,
        _ => (s + 1).min(3),
    };
    let moves: Vec<usize> = (0..16).map(|k| law(k / 4, k % 2, k / 2 % 2)).collect();
    for mode in [Mode::Fair, Mode::Stable] {
        let goals = vec![false, false, false, true];
        let game = Game { i: 1, o: 1, n: 4, moves: moves.clone(), goals, mask: 1, mode };
        let (direct, round_about) = ([1, 1, 0, 0, 0, 0, 0, 0], [0, 1, 0, 0, 0, 0, 0, 0]);
        assert_eq!(tables(&game, 0).round, 1);
        assert!(judge(&game, 0, 1, &direct, &[255; 4]).is_ok());
        assert!(judge(&game, 0, 1, &round_about, &[255; 4]).is_err(), "three steps, below n = 4");
        assert!(judge(&game, 0, 2, &round_about, &[255; 4]).is_err());
        assert!(judge(&game, 0, 3, &round_about, &[255; 4]).is_ok());
        // From a state behind the start the detour does not count.
        assert!(judge(&game, 2, 1, &round_about, &[255; 4]).is_ok());
    }
}

#[test]
fn longest_counts() {
    let edge = |from, to, marked| Edge { from, to, marked };
    let path = [edge(0, 1, true), edge(1, 2, false), edge(2, 3, true), edge(2, 2, false)];
    assert_eq!(most_marked(4, &path), Some(2));
    assert_eq!(most_in_a_row(4, &path), Some(1));
    let ring = [edge(0, 1, true), edge(1, 0, false)];
    assert_eq!(most_marked(2, &ring), None);
    assert_eq!(most_in_a_row(2, &ring), Some(1));
    assert_eq!(most_in_a_row(1, &[edge(0, 0, true)]), None);
    assert_eq!(edges_from(4, &path, 2), path[2..]);
    assert_eq!(edges_from(4, &path, 3), []);
    assert_eq!(edges_from(2, &ring, 1), ring);
    let round = [edge(0, 3, false), edge(3, 2, false), edge(2, 1, false), edge(1, 0, true)];
    assert_eq!(most_marked(4, &round), None);
}

#[test]
fn the_automaton_agrees_with_the_meaning() {
    let mut chance = Chance::new(7, 0, 0);
    for _ in 0..400 {
        let (i, o) = (chance.below(3), chance.below(2));
        let text = rule_text(&mut chance, i, o, 12, 5);
        let tree = read(&text, Wording::rule(i, o)).unwrap();
        let Some(automaton) = build(&tree, i, o, 3_000) else { continue };
        let wide = build_wide(&tree, i, o, 3_000).unwrap();
        assert_eq!((&wide.moves, &wide.goals), (&automaton.moves, &automaton.goals));
        for _ in 0..10 {
            let list: Vec<u8> = (0..chance.below(8)).map(|_| chance.below(1 << (i + o)) as u8).collect();
            let last = list.iter().fold(0, |s, &letter| automaton.moves[s * automaton.letters + letter as usize]);
            assert_eq!(automaton.goals[last], satisfies(&tree, i, &list), "{text:?} {list:?}");
        }
    }
}
