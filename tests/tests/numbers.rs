//! The numbers of the states and the tables: plays one by one against ways with any memory, all tables of small
//! automata, small automata by hand, and what larger ones have in common.

mod small;

use small::*;
use solver::chance::Chance;
use solver::game::{winners, Board, Game};
use solver::judge::judge;
use solver::longest::{edges_from, most_marked, Edge};
use solver::numbers::{counts, distances, needs, rounds, start_needs, Numbers};
use solver::tables::{build, Tables};
use solver::Mode::*;

#[test]
fn the_lowest_output_and_not_the_nearest() {
    // 0 to 1 to the goal, 2, by output 0; output 1 enters the goal at once. Input 1 lacks the condition: output 0 goes
    // back to 0, output 1 stays.
    let law = |s: usize, x: usize, y: usize| match (s, x, y) {
        (2, ..) | (_, 0, 1) => 2,
        (_, 0, _) => s + 1,
        (_, _, 0) => 0,
        _ => s,
    };
    for mode in [Fair, Stable] {
        let game = game(mode, (1, 1, 3), &[2], law);
        // Every state has the number 1, so with the condition a goal has to be entered.
        assert_eq!(build(&game, 0).station, [1, 0, 0, 0, 0, 0], "{mode:?}");
    }
    // The same without the step from 0 to the goal: 0 has the number 2, and 1 may not go back to it when fair.
    let longer = |s: usize, x: usize, y: usize| if (s, x) == (0, 0) { 1 } else { law(s, x, y) };
    let fair = game(Fair, (1, 1, 3), &[2], longer);
    assert_eq!(rounds(&Board::new(&fair)), [2, 1, 1].map(Some));
    assert_eq!(build(&fair, 0).station, [0, 0, 0, 1, 0, 0]);
    // When stable 1 may go back from the start 0, where m is 2, and from the start 1, where m is 1, it may not.
    let stable = game(Stable, (1, 1, 3), &[2], longer);
    assert_eq!(build(&stable, 0).station, [0, 0, 0, 0, 0, 0]);
    assert_eq!(needs(&Board::new(&stable), 1), [None, Some(1), Some(1)]);
    assert_eq!(build(&stable, 1).station, [0, 0, 0, 1, 0, 0]);
}

#[test]
fn a_need_above_m() {
    // Under the condition output 1 goes from 0 to 1 to 2 to the goal, 3, and output 0 stays; a step without it enters
    // the goal at once. From the start 2 m is 1, and the needs of 0 and 1 for 1 are above it.
    let game = game(Stable, (1, 1, 4), &[3], |s, x, y| match (x, y) {
        (1, _) => 3,
        (_, 0) => s,
        _ => (s + 1).min(3),
    });
    assert_eq!(needs(&Board::new(&game), 1), [3, 2, 1, 1].map(Some));
    assert_eq!((build(&game, 2).round, build(&game, 0).round), (1, 3));
    assert_eq!(build(&game, 2).station, [1, 0, 1, 0, 1, 0, 0, 0]);
}

#[test]
fn the_lowest_input() {
    // 0 to 1 to 2 by inputs 2 and 3, which lack the condition; input 1 has it and enters the goal, 3, but for 2, where
    // it stays. Input 0 lacks the condition and stays.
    let law = |s: usize, x: usize, _: usize| match (s, x) {
        (3, _) | (0 | 1, 1) => 3,
        (2, _) | (_, 0) => s,
        _ => s + 1,
    };
    let [fair, stable] = [Fair, Stable].map(|mode| Game { mask: 2, ..game(mode, (2, 0, 4), &[3], law) });
    let (fair, stable) = (Board::new(&fair), Board::new(&stable));
    assert_eq!(distances(&fair, &winners(fair.game)), [Some(3), Some(2), Some(1), None]);
    assert_eq!(counts(&stable), [Some(2), Some(1), Some(0), None]);
    assert_eq!(build(fair.game, 0).outside, [2, 2, 1, 255]);
    assert_eq!(build(stable.game, 0).outside, [2, 2, 1, 255]);
}

/// The lowest of some choices that serves.
fn lowest(choices: usize, serves: impl Fn(usize) -> bool) -> u8 {
    (0..choices).find(|&choice| serves(choice)).unwrap() as u8
}

/// The station's byte, given which states it may enter beside goals.
fn output(game: &Game, s: usize, x: usize, may: impl Fn(usize) -> bool) -> u8 {
    lowest(game.outputs(), |y| game.goals[game.step(s, x, y)] || may(game.step(s, x, y)))
}

/// The outside's byte, given after which inputs it may enter which states, goals set aside.
fn input(game: &Game, s: usize, may: impl Fn(usize, usize) -> bool) -> u8 {
    let enters = |x: usize, y: usize| game.step(s, x, y);
    lowest(game.inputs(), |x| {
        (0..game.outputs()).all(|y| !game.goals[enters(x, y)]) && (0..game.outputs()).all(|y| may(x, enters(x, y)))
    })
}

/// All numbers by plays: rounds and distances when fair.
fn fair_by_plays(game: &Game, wins: &[bool]) -> (Numbers, Numbers) {
    let own = |s: usize, win: bool, number: Option<usize>| if wins[s] == win { number } else { None };
    let rounds = (0..game.n).map(|s| round_by_plays(game, s)).collect();
    (rounds, (0..game.n).map(|s| own(s, false, distance_by_plays(game, wins, s))).collect())
}

/// The tables by the words of their rules, when fair, out of rounds and distances.
fn fair_tables(game: &Game, rounds: &Numbers, distances: &Numbers) -> (Vec<u8>, Vec<u8>) {
    let station = |s: usize, x: usize| match rounds[s] {
        None => 255,
        Some(own) if game.condition(x) => output(game, s, x, |t| rounds[t].is_some_and(|round| round < own)),
        Some(own) => output(game, s, x, |t| rounds[t].is_some_and(|round| round <= own)),
    };
    let outside = |s: usize| match distances[s] {
        None => 255,
        Some(own) => input(game, s, |x, t| {
            let lost = rounds[t].is_some();
            !lost && (game.condition(x) || distances[t].unwrap() < own)
        }),
    };
    let stations = (0..game.n).flat_map(|s| (0..game.inputs()).map(move |x| (s, x)));
    (stations.map(|(s, x)| station(s, x)).collect(), (0..game.n).map(outside).collect())
}

/// The tables by the words of their rules, when stable, out of needs for m and for n, and counts.
fn stable_tables(game: &Game, m: usize, near: &Numbers, far: &Numbers, numbers: &Numbers) -> (Vec<u8>, Vec<u8>) {
    let station = |s: usize, x: usize| {
        let (needs, most) = if near[s].is_some() { (near, m) } else { (far, game.n) };
        match needs[s] {
            None => 255,
            Some(own) if game.condition(x) => output(game, s, x, |t| needs[t].is_some_and(|need| need < own)),
            Some(_) => output(game, s, x, |t| needs[t].is_some_and(|need| need <= most)),
        }
    };
    let outside = |s: usize| match numbers[s] {
        None => 255,
        Some(own) => input(game, s, |x, t| match numbers[t] {
            None => false,
            Some(number) if game.condition(x) => number <= own,
            Some(number) => number < own,
        }),
    };
    let stations = (0..game.n).flat_map(|s| (0..game.inputs()).map(move |x| (s, x)));
    (stations.map(|(s, x)| station(s, x)).collect(), (0..game.n).map(outside).collect())
}

/// Holds all numbers and both tables, with every start, to plays. Says what was there: the largest round or need,
/// whether a need was above its m, whether a won state had none for a round number, the largest distance or count and
/// 1.
fn by_plays(game: &Game) -> (usize, bool, bool, usize) {
    let (board, wins) = (Board::new(game), winners(game));
    let largest = |numbers: &Numbers| numbers.iter().flatten().max().copied().unwrap_or(0);
    let starts: Vec<Option<usize>> = (0..game.n).map(|s| round_by_plays(game, s)).collect();
    let bytes = |start: usize| {
        let Tables { station, outside, round } = build(game, start);
        assert_eq!(Some(round).filter(|&round| round > 0), starts[start], "{game:?}");
        (station, outside)
    };
    if game.mode == Fair {
        let (by_rounds, by_distances) = fair_by_plays(game, &wins);
        assert_eq!(rounds(&board), by_rounds, "{game:?}");
        assert_eq!(distances(&board, &wins), by_distances, "{game:?}");
        let wanted = fair_tables(game, &by_rounds, &by_distances);
        (0..game.n).for_each(|start| assert_eq!(bytes(start), wanted, "{game:?}"));
        return (largest(&by_rounds), false, false, largest(&by_distances));
    }
    let by_counts: Numbers = (0..game.n).map(|s| count_by_plays(game, s)).collect();
    assert_eq!(counts(&board), by_counts, "{game:?}");
    let by_needs = |m: usize| -> Numbers { (0..game.n).map(|s| need_by_plays(game, s, m)).collect() };
    let all: Vec<Numbers> = (1..=game.n).map(by_needs).collect();
    all.iter().enumerate().for_each(|(k, wanted)| assert_eq!(&needs(&board, k + 1), wanted, "{game:?} {}", k + 1));
    let far = &all[game.n - 1];
    let mut lacking = false;
    for (start, &number) in starts.iter().enumerate() {
        let m = number.unwrap_or(game.n);
        let near = &all[m - 1];
        lacking |= (0..game.n).any(|s| wins[s] && near[s].is_none());
        assert_eq!(bytes(start), stable_tables(game, m, near, far, &by_counts), "{game:?} {start}");
    }
    let above = (1..=game.n).any(|m| largest(&all[m - 1]) > m);
    (largest(far), above, lacking, by_counts.iter().flatten().max().map_or(0, |number| number + 1))
}

/// What the games of a test had.
#[derive(Debug, Default)]
struct Seen {
    station: [usize; 4],
    outside: [usize; 4],
    above: usize,
    lacking: usize,
}

impl Seen {
    /// Notes a game.
    fn note(&mut self, (station, above, lacking, outside): (usize, bool, bool, usize)) {
        self.station[station] += 1;
        self.outside[outside] += 1;
        self.above += above as usize;
        self.lacking += lacking as usize;
    }
}

#[test]
fn all_games_of_two_states_by_plays() {
    let mut seen = Seen::default();
    (0..TWO_STATES).for_each(|k| seen.note(by_plays(&two_states(k))));
    assert!(seen.station[..3].iter().all(|&count| count > 100), "{seen:?}");
    assert!(seen.outside[..3].iter().all(|&count| count > 50), "{seen:?}");
    assert!(seen.above > 100, "{seen:?}");
}

#[test]
fn games_of_three_states_by_plays() {
    let mut chance = Chance::new(14, 0, 0);
    let mut seen = Seen::default();
    (0..1_000).for_each(|_| seen.note(by_plays(&small_game(&mut chance, 3))));
    assert!(seen.station.iter().chain(&seen.outside[..3]).all(|&count| count > 10), "{seen:?}");
    assert!(seen.above > 20 && seen.lacking > 5, "{seen:?}");
}

/// The k-th table with so many bytes below a range, if tables are numbered.
fn table(k: usize, bytes: usize, range: usize) -> Vec<usize> {
    (0..bytes).map(|at| k / range.pow(at as u32) % range).collect()
}

/// The steps by a station's table that enter no goal; marked are those with the condition.
fn station_steps(game: &Game, table: &[usize]) -> Vec<Edge> {
    let step = |(at, &y): (usize, &usize)| {
        let (s, x) = (at / game.inputs(), at % game.inputs());
        Edge { from: s, to: game.step(s, x, y), marked: game.condition(x) }
    };
    table.iter().enumerate().map(step).filter(|edge| !game.goals[edge.to]).collect()
}

/// The steps by an outside table; marked are those without the condition.
fn outside_steps(game: &Game, table: &[usize]) -> Vec<Edge> {
    let step = |s: usize, y: usize| Edge { from: s, to: game.step(s, table[s], y), marked: !game.condition(table[s]) };
    (0..game.n).flat_map(|s| (0..game.outputs()).map(move |y| step(s, y))).collect()
}

/// The number of marked steps of the longest row of marked steps from a state, if there is a longest.
fn row_from(n: usize, edges: &[Edge], s: usize) -> Option<usize> {
    let marked: Vec<Edge> = edges.iter().filter(|edge| edge.marked).copied().collect();
    most_marked(n, &edges_from(n, &marked, s))
}

/// The round that a table keeps from a state.
fn kept_round(game: &Game, table: &[usize], s: usize) -> Option<usize> {
    let edges = edges_from(game.n, &station_steps(game, table), s);
    most_marked(game.n, &edges).map(|most| most + 1)
}

/// The need for m that a table keeps from a state.
fn kept_need(game: &Game, table: &[usize], m: usize, s: usize) -> Option<usize> {
    let edges = edges_from(game.n, &station_steps(game, table), s);
    let short = |edge: &Edge| edge.marked || row_from(game.n, &edges, edge.to).is_some_and(|row| row < m);
    row_from(game.n, &edges, s).filter(|_| edges.iter().all(short)).map(|row| row + 1)
}

/// The distance that a table keeps from a state: the row without the condition and the step that has it.
fn kept_distance(game: &Game, wins: &[bool], table: &[usize], s: usize) -> Option<usize> {
    let edges = outside_steps(game, table);
    let before: Vec<Edge> = edges.iter().filter(|edge| edge.marked).copied().collect();
    let passed = edges_from(game.n, &before, s);
    let on_the_way = |t: usize| t == s || passed.iter().any(|edge| edge.to == t);
    let good = edges.iter().filter(|edge| on_the_way(edge.from)).all(|edge| !game.goals[edge.to] && !wins[edge.to]);
    most_marked(game.n, &passed).filter(|_| good).map(|row| row + 1)
}

/// The count that a table keeps from a state.
fn kept_count(game: &Game, table: &[usize], s: usize) -> Option<usize> {
    let edges = edges_from(game.n, &outside_steps(game, table), s);
    most_marked(game.n, &edges).filter(|_| edges.iter().all(|edge| !game.goals[edge.to]))
}

/// For each state the least number that one of so many tables keeps.
fn best(game: &Game, (bytes, range): (usize, usize), kept: impl Fn(&[usize], usize) -> Option<usize>) -> Numbers {
    let tables: Vec<Vec<usize>> = (0..range.pow(bytes as u32)).map(|k| table(k, bytes, range)).collect();
    (0..game.n).map(|s| tables.iter().filter_map(|table| kept(table, s)).min()).collect()
}

#[test]
fn the_best_tables_keep_the_numbers() {
    let mut chance = Chance::new(15, 0, 0);
    for _ in 0..1_500 {
        let game = small_game(&mut chance, 4);
        let (board, wins) = (Board::new(&game), winners(&game));
        let (station, outside) = ((game.n * game.inputs(), game.outputs()), (game.n, game.inputs()));
        if game.mode == Fair {
            let rounds = rounds(&board);
            assert_eq!(best(&game, station, |table, s| kept_round(&game, table, s)), rounds, "{game:?}");
            let wanted = best(&game, outside, |table, s| kept_distance(&game, &wins, table, s));
            assert_eq!(wanted, distances(&board, &wins), "{game:?}");
        } else {
            let m = chance.between(1, game.n + 1);
            assert_eq!(
                best(&game, station, |table, s| kept_need(&game, table, m, s)),
                needs(&board, m),
                "{game:?} {m}"
            );
            assert_eq!(best(&game, outside, |table, s| kept_count(&game, table, s)), counts(&board), "{game:?}");
        }
    }
}

#[test]
fn the_tables_keep_all_numbers_at_once() {
    let mut chance = Chance::new(16, 0, 0);
    for _ in 0..3_000 {
        let game = small_game(&mut chance, 12);
        let (board, wins, start) = (Board::new(&game), winners(&game), chance.below(game.n));
        let tables = build(&game, start);
        assert_eq!(judge(&game, start, tables.round, &tables.station, &tables.outside), Ok(wins.clone()), "{game:?}");
        // Bytes of the other side lead nowhere: a play comes to none before a goal.
        let bytes =
            |table: &[u8]| -> Vec<usize> { table.iter().map(|&b| if b == 255 { 0 } else { b as usize }).collect() };
        let (station, outside) = (bytes(&tables.station), bytes(&tables.outside));
        let kept = |own: bool, numbers: &Numbers, kept: &dyn Fn(usize) -> Option<usize>| {
            (0..game.n)
                .filter(|&s| wins[s] == own && numbers[s].is_some())
                .for_each(|s| assert_eq!(kept(s), numbers[s], "{game:?} {s}"))
        };
        if game.mode == Fair {
            let rounds = rounds(&board);
            kept(true, &rounds, &|s| kept_round(&game, &station, s));
            kept(false, &distances(&board, &wins), &|s| kept_distance(&game, &wins, &outside, s));
        } else {
            let m = if tables.round > 0 { tables.round } else { game.n };
            kept(true, &needs(&board, m), &|s| kept_need(&game, &station, m, s));
            kept(false, &counts(&board), &|s| kept_count(&game, &outside, s));
        }
    }
}

#[test]
fn who_has_a_number() {
    let mut chance = Chance::new(17, 0, 0);
    for _ in 0..2_000 {
        let game = small_game(&mut chance, 12);
        let (board, wins) = (Board::new(&game), winners(&game));
        let has = |numbers: &Numbers, low: usize, high: usize, win: bool| {
            (0..game.n).all(|s| numbers[s].is_some() == (wins[s] == win))
                && numbers.iter().flatten().all(|number| (low..=high).contains(number))
        };
        if game.mode == Fair {
            let rounds = rounds(&board);
            assert!(has(&rounds, 1, game.n, true) && has(&distances(&board, &wins), 1, game.n, false), "{game:?}");
        } else {
            assert!(
                has(&needs(&board, game.n), 1, game.n, true) && has(&counts(&board), 0, game.n - 1, false),
                "{game:?}"
            );
        }
    }
}

#[test]
fn needs_for_larger_and_larger_numbers() {
    let mut chance = Chance::new(18, 0, 0);
    let (mut lost, mut above, mut fewer) = (0, 0, 0);
    for _ in 0..2_000 {
        let game = Game { mode: Stable, ..small_game(&mut chance, 10) };
        let (board, wins) = (Board::new(&game), winners(&game));
        let all: Vec<Numbers> = (1..=2 * game.n).map(|m| needs(&board, m)).collect();
        assert!(all[game.n..].iter().all(|needs| needs == &all[game.n - 1]), "{game:?}: above n nothing changes");
        for s in 0..game.n {
            let of: Vec<Option<usize>> = all.iter().map(|needs| needs[s]).collect();
            assert!(of
                .windows(2)
                .all(|pair| pair[0].is_none() || pair[1].is_some_and(|need| need <= pair[0].unwrap())));
            fewer += of.windows(2).any(|pair| pair[0] > pair[1] && pair[1].is_some()) as usize;
            let does = (1..=game.n).find(|&m| of[m - 1].is_some_and(|need| need <= m));
            let number = Some(s).filter(|_| wins[s]).map(|s| start_needs(&board, s));
            assert_eq!(number.as_ref().map(|(number, _)| *number), does, "{game:?}");
            if let Some((number, needs)) = number {
                assert_eq!(needs, all[number - 1], "{game:?}");
                above += needs.iter().flatten().any(|&need| need > number) as usize;
                lost += (0..game.n).any(|t| wins[t] && needs[t].is_none()) as usize;
            }
        }
    }
    assert!(lost > 200 && above > 200 && fewer > 0, "{lost} {above} {fewer}");
}
