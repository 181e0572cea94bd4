//! Small games, and plays on them one by one, against ways with any memory: what a way does may depend on all of the
//! play.
#![allow(dead_code)]

use solver::chance::Chance;
use solver::game::Game;
use solver::makers::{game_shape, outside_shape, round_shape};
use solver::Mode::{self, *};

/// A game whose moves are a law from state, input and output. Input 0 alone has the condition.
pub fn game(
    mode: Mode,
    (i, o, n): (usize, usize, usize),
    goals: &[usize],
    law: impl Fn(usize, usize, usize) -> usize,
) -> Game {
    let (inputs, letters) = (1 << i, 1 << (i + o));
    let moves = (0..n * letters).map(|k| law(k / letters, k % inputs, k % letters / inputs)).collect();
    Game { i, o, n, moves, goals: (0..n).map(|s| goals.contains(&s)).collect(), mask: 1, mode }
}

/// The count of games of two states with one input and one output, in both modes.
pub const TWO_STATES: usize = 1 << 13;

/// The k-th of them.
pub fn two_states(k: usize) -> Game {
    let bit = |at: usize| k >> at & 1;
    let mode = if bit(12) == 0 { Fair } else { Stable };
    let goals = vec![bit(8) == 1, bit(9) == 1];
    Game { i: 1, o: 1, n: 2, moves: (0..8).map(bit).collect(), goals, mask: (k >> 10 & 3) as u16, mode }
}

/// A random game with at most one input and one output.
pub fn small_game(chance: &mut Chance, most: usize) -> Game {
    let (i, o, n) = (chance.below(2), chance.below(2), chance.between(1, most));
    let (moves, marks, mask) = match chance.below(4) {
        0 => {
            let (moves, marks) = game_shape(chance, i, o, n);
            (moves, marks, chance.draw() as u16 & ((1 << (1 << i)) - 1))
        }
        1 => outside_shape(chance, i, o, n),
        _ => round_shape(chance, i, o, n),
    };
    let goals = marks.iter().map(|&mark| mark != 0).collect();
    let mode = if chance.one_in(2) { Fair } else { Stable };
    Game { i, o, n, moves: moves.iter().map(|&t| t as usize).collect(), goals, mask, mode }
}

/// A play from a state: its steps, and the states that they enter.
pub struct Play<'a> {
    game: &'a Game,
    start: usize,
    steps: Vec<(usize, usize)>,
}

impl<'a> Play<'a> {
    /// The empty play from a state.
    pub fn new(game: &'a Game, start: usize) -> Play<'a> {
        Play { game, start, steps: vec![] }
    }

    /// The states that its steps enter.
    fn entered(&self) -> Vec<usize> {
        let mut s = self.start;
        let enter = |&(x, y): &(usize, usize)| {
            s = self.game.step(s, x, y);
            s
        };
        self.steps.iter().map(enter).collect()
    }

    /// Whether a step enters a goal.
    fn is_done(&self) -> bool {
        self.entered().iter().any(|&t| self.game.goals[t])
    }

    /// Which of its steps have the condition.
    fn condition(&self) -> Vec<bool> {
        self.steps.iter().map(|&(x, _)| self.game.condition(x)).collect()
    }

    /// Whether a test holds of the play with one step more.
    fn after(&mut self, step: (usize, usize), test: &mut dyn FnMut(&mut Self) -> bool) -> bool {
        self.steps.push(step);
        let holds = test(self);
        self.steps.pop();
        holds
    }

    /// Whether every way of answering has a play, beginning as this one, that enters no goal and is bad by its steps
    /// with and without the condition. Plays of at most `depth` more steps are looked at.
    pub fn is_beaten(&mut self, bad: &dyn Fn(&[bool]) -> bool, depth: usize) -> bool {
        if self.is_done() {
            return false;
        }
        if bad(&self.condition()) || depth == 0 {
            return bad(&self.condition());
        }
        let game = self.game;
        (0..game.inputs())
            .any(|x| (0..game.outputs()).all(|y| self.after((x, y), &mut |play| play.is_beaten(bad, depth - 1))))
    }

    /// Whether the outside has a way by which every play, beginning as this one, has the condition within `k` more
    /// steps, and up to and with this step enters no goal and no state of the station.
    pub fn forces_condition(&mut self, wins: &[bool], k: usize) -> bool {
        if self.is_done() || self.entered().iter().any(|&t| wins[t]) {
            return false;
        }
        if self.condition().contains(&true) || k == 0 {
            return self.condition().contains(&true);
        }
        let game = self.game;
        (0..game.inputs())
            .any(|x| (0..game.outputs()).all(|y| self.after((x, y), &mut |play| play.forces_condition(wins, k - 1))))
    }

    /// Whether the outside has a way by which every play, beginning as this one and of at most `depth` more steps,
    /// enters no goal and lacks the condition at most at `k` steps.
    pub fn holds_to(&mut self, k: usize, depth: usize) -> bool {
        if self.is_done() || self.condition().iter().filter(|&&held| !held).count() > k {
            return false;
        }
        let game = self.game;
        depth == 0
            || (0..game.inputs())
                .any(|x| (0..game.outputs()).all(|y| self.after((x, y), &mut |play| play.holds_to(k, depth - 1))))
    }
}

/// Whether k steps have the condition, in a row when stable.
pub fn has(mode: Mode, condition: &[bool], k: usize) -> bool {
    match mode {
        Fair => condition.iter().filter(|&&held| held).count() >= k,
        Stable => condition.windows(k).any(|row| row.iter().all(|&held| held)),
    }
}

/// Whether the first k steps have the condition, or m in a row after a step without it.
fn breaks(condition: &[bool], k: usize, m: usize) -> bool {
    let opening = condition.len() >= k && condition[..k].iter().all(|&held| held);
    opening || condition.windows(m + 1).any(|row| !row[0] && row[1..].iter().all(|&held| held))
}

/// The round number of a start: the least k up to n with which some way is not beaten. What the outside can force at
/// all it can in n * k steps: a longer play comes to a state with a count that it has had.
pub fn round_by_plays(game: &Game, start: usize) -> Option<usize> {
    let beaten = |k: usize| Play::new(game, start).is_beaten(&|steps| has(game.mode, steps, k), game.n * k);
    (1..=game.n).find(|&k| !beaten(k))
}

/// The need of a state for m; where there is none up to n, 2 n does no better.
pub fn need_by_plays(game: &Game, s: usize, m: usize) -> Option<usize> {
    let beaten = |k: usize| Play::new(game, s).is_beaten(&|steps| breaks(steps, k, m), game.n * k.max(m));
    let need = (1..=game.n).find(|&k| !beaten(k));
    assert!(need.is_some() || beaten(2 * game.n), "{game:?}: a need above n");
    need
}

/// The distance of a state.
pub fn distance_by_plays(game: &Game, wins: &[bool], s: usize) -> Option<usize> {
    (1..=game.n).find(|&k| Play::new(game, s).forces_condition(wins, k))
}

/// The number of a state. What can be held for (k + 1) n steps can be held for ever.
pub fn count_by_plays(game: &Game, s: usize) -> Option<usize> {
    (0..game.n).find(|&k| Play::new(game, s).holds_to(k, game.n * (k + 1)))
}
