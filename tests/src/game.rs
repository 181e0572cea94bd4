//! Both games of the specification ("Game") by nested fixpoints over sets of states (one u128,
//! bit s for state s). Only entered states count: goals are looked at after a step, never at the
//! state a step leaves. Each side's winning set is computed by its own fixpoint.
//!
//! fair    station  mu Z. nu W.  every X has a Y:  into W or a goal, and (no condition or into Z or a goal)
//!         outside  nu Z. mu W.  some X, every Y:  into W but no goal, or (condition and into Z but no goal)
//! stable  station  nu Z. mu W.  every X has a Y:  into Z or a goal, and (no condition or into W or a goal)
//!         outside  mu Z. nu W.  some X, every Y:  into Z but no goal, or (condition and into W but no goal)

use crate::Mode;

/// A set of states.
pub type States = u128;

/// A game: moves as in the specification, goals, the condition by inputs, and the mode.
#[derive(Clone, Debug)]
pub struct Game {
    pub i: usize,
    pub o: usize,
    pub n: usize,
    pub moves: Vec<usize>,
    pub goals: Vec<bool>,
    pub mask: u16,
    pub mode: Mode,
}

/// The game with its successors gathered: a set for each state and input.
pub struct Board<'a> {
    pub game: &'a Game,
    goals: States,
    successors: Vec<States>,
}

impl Game {
    /// The state after an input and an output.
    pub fn step(&self, s: usize, x: usize, y: usize) -> usize {
        self.moves[(s << (self.i + self.o)) + x + (y << self.i)]
    }

    /// Whether the condition holds for an input.
    pub fn condition(&self, x: usize) -> bool {
        self.mask >> x & 1 == 1
    }

    /// The count of inputs.
    pub fn inputs(&self) -> usize {
        1 << self.i
    }

    /// The count of outputs.
    pub fn outputs(&self) -> usize {
        1 << self.o
    }
}

impl Board<'_> {
    /// Gathers the successors of every state and input.
    pub fn new(game: &Game) -> Board<'_> {
        let goals = (0..game.n).filter(|&s| game.goals[s]).fold(0, |set, s| set | 1 << s);
        let mut successors = vec![];
        for s in 0..game.n {
            for x in 0..game.inputs() {
                successors.push((0..game.outputs()).fold(0, |set, y| set | 1 << game.step(s, x, y)));
            }
        }
        Board { game, goals, successors }
    }

    /// All states.
    pub fn all(&self) -> States {
        if self.game.n == 128 {
            !0
        } else {
            (1 << self.game.n) - 1
        }
    }

    /// The states that satisfy a test.
    fn states(&self, test: impl Fn(usize) -> bool) -> States {
        (0..self.game.n).filter(|&s| test(s)).fold(0, |set, s| set | 1 << s)
    }

    /// Where the station has an answer to every input: into `wide` or a goal, and under the
    /// condition also into `narrow` or a goal.
    fn station_step(&self, wide: States, narrow: States) -> States {
        self.states(|s| {
            (0..self.game.inputs()).all(|x| {
                let under = if self.game.condition(x) { wide & narrow } else { wide };
                self.successors[s * self.game.inputs() + x] & (under | self.goals) != 0
            })
        })
    }

    /// Those of some states where the station has an answer to every input: into a goal, or into `with` under the
    /// condition and into `without` otherwise.
    pub fn answered(&self, among: States, without: States, with: States) -> States {
        let serves = |s: usize, x: usize| {
            let into = if self.game.condition(x) { with } else { without };
            self.successors[s * self.game.inputs() + x] & (into | self.goals) != 0
        };
        self.states(|s| among >> s & 1 == 1 && (0..self.game.inputs()).all(|x| serves(s, x)))
    }

    /// Where the outside has an input after which every output leads, without entering a goal,
    /// into `narrow`, or under the condition into `wide` or `narrow`.
    pub fn outside_step(&self, wide: States, narrow: States) -> States {
        self.states(|s| {
            (0..self.game.inputs()).any(|x| {
                let under = if self.game.condition(x) { wide | narrow } else { narrow };
                self.successors[s * self.game.inputs() + x] & !(under & !self.goals) == 0
            })
        })
    }
}

/// The stages of a least fixpoint from the empty set, ending with the fixpoint.
pub fn least(step: impl Fn(States) -> States) -> Vec<States> {
    let mut stages = vec![0];
    loop {
        let last = stages[stages.len() - 1];
        let next = step(last);
        if next == last {
            return stages;
        }
        stages.push(next);
    }
}

/// The greatest fixpoint below a set.
pub fn greatest(top: States, step: impl Fn(States) -> States) -> States {
    let mut set = top;
    loop {
        let next = step(set);
        if next == set {
            return set;
        }
        set = next;
    }
}

/// The last stage of a least fixpoint.
fn last(stages: &[States]) -> States {
    stages[stages.len() - 1]
}

/// The states that the station wins.
pub fn station_wins(board: &Board) -> States {
    let all = board.all();
    match board.game.mode {
        Mode::Fair => last(&least(|z| greatest(all, |w| board.station_step(w, z)))),
        Mode::Stable => greatest(all, |z| last(&least(|w| board.station_step(z, w)))),
    }
}

/// The states that the outside wins.
pub fn outside_wins(board: &Board) -> States {
    let all = board.all();
    match board.game.mode {
        Mode::Fair => greatest(all, |z| last(&least(|w| board.outside_step(z, w)))),
        Mode::Stable => last(&least(|z| greatest(all, |w| board.outside_step(w, z)))),
    }
}

/// For each state, whether the station wins from it. The two fixpoints must part the states.
pub fn winners(game: &Game) -> Vec<bool> {
    let board = Board::new(game);
    let (station, outside) = (station_wins(&board), outside_wins(&board));
    assert_eq!(station ^ outside, board.all(), "the two fixpoints do not part the states");
    assert_eq!(station & outside, 0, "a state is won twice");
    (0..game.n).map(|s| station >> s & 1 == 1).collect()
}
