//! Given automata that ask much of a solver by ranks (docs/THEORY.md, section 4), each as
//! a law from n. State 0 loses for the station and the last state is the goal. Between them stand
//!
//! heads  head k gets its outer rank only a round after head k - 1: one round for each
//! chain  gets its inner ranks anew in every round, one state a pass
//! crowd  hangs on the end of the chain, so that every pass looks at all of it
//!
//! With h heads, c chain states and w in the crowd a run looks at about h * c * (w + c / 2) states.
//! `longest` is made for many looks: in fair mode h = n / 3 and no crowd, about 2/27 of n cubed; in
//! stable mode a ladder, in which every state is both chain and head, about a sixth of n cubed.
//! These are not exact maxima: a hill climb found half as many again (fair, n = 16: 466 for 307)
//! and a little more (stable, n = 16: 752 for 697). That they lead for large n is an argument on
//! paper only. `crowded` has the worst ratio to the solver among the heads and chains of a grid.
//! Every look is long for a search from output 0 on: an input is served by its last output alone,
//! and the last input decides.

use solver::calls::Given;
use solver::chance::Chance;
use solver::Mode;

/// How many of the n states stand where.
#[derive(Clone, Copy, Debug)]
struct Shape {
    n: usize,
    heads: usize,
    chain: usize,
}

/// Moves by a law from state, input and output.
fn moves(n: usize, (i, o): (usize, usize), law: impl Fn(usize, usize, usize) -> usize) -> Vec<u8> {
    let mut moves = vec![];
    for s in 0..n {
        for letter in 0..1usize << (i + o) {
            moves.push(law(s, letter % (1 << i), letter >> i) as u8);
        }
    }
    moves
}

impl Shape {
    /// Where an output that does not serve leads: to state 0, which is lost, or to the state before
    /// the goal, which has no rank yet while it matters. Which of the two is a mixed bit of the
    /// step's number, so that a branch predictor has a hard time.
    fn unserving(&self, s: usize, x: usize, y: usize) -> usize {
        let mixed = ((s * 256 + x * 16 + y) as u64).wrapping_mul(0x9E37_79B9_7F4A_7C15) >> 40;
        [0, self.n - 2][(mixed & 1) as usize]
    }

    /// The state before a chain or crowd state on its way along the chain.
    fn before(&self, s: usize) -> usize {
        (s - 1).min(self.heads + self.chain)
    }

    /// Fair: head k has to step to head k - 1 under the condition. The chain begins at the last
    /// head and leads on by the last input, which has no condition.
    fn fair(&self, i: usize, o: usize) -> Given {
        let (inputs, outputs, goal) = (1usize << i, 1 << o, self.n - 1);
        let law = |s: usize, x: usize, y: usize| match s {
            0 => 0,
            s if s == goal || s == 1 => goal,
            s if s <= self.heads => [goal, s - 1][(x == 0) as usize],
            s if y < outputs - 1 => [self.unserving(s, x, y), 0][(x == inputs - 1) as usize],
            s if x == inputs - 1 => self.before(s),
            _ => goal,
        };
        let mask = ((1u32 << (inputs - 1)) - 1) as u16;
        self.given(moves(self.n, (i, o), law), mask)
    }

    /// Stable: head k steps to head k - 1 without the condition. The chain comes nearer to the goal
    /// by one state a step, by the last input, which has the condition.
    fn stable(&self, i: usize, o: usize) -> Given {
        let (inputs, outputs, goal) = (1usize << i, 1 << o, self.n - 1);
        let law = |s: usize, x: usize, y: usize| match s {
            0 => 0,
            s if s == goal => goal,
            s if s <= self.heads => [goal, s - 1][(x == 0) as usize],
            s if y < outputs - 1 => [self.unserving(s, x, y), 0][(x == 0) as usize],
            s if x == inputs - 1 && s > self.heads + 1 => self.before(s),
            _ => goal,
        };
        let mask = ((1u32 << inputs) - 2) as u16;
        self.given(moves(self.n, (i, o), law), mask)
    }

    /// The automaton with the last state as the only goal.
    fn given(&self, moves: Vec<u8>, mask: u16) -> Given {
        let n = self.n;
        Given { n, moves, marks: (0..n).map(|s| (s == n - 1) as u8).collect(), start: n - 2, mask }
    }

    /// Stable, without heads: the last input, which has the condition, leads down to the goal, and
    /// input 0, which has none, leads up to where the station has lost.
    fn ladder(&self, i: usize, o: usize) -> Given {
        let (inputs, outputs, goal) = (1usize << i, 1 << o, self.n - 1);
        let law = |s: usize, x: usize, y: usize| match s {
            0 => 0,
            s if s == goal => goal,
            s if y < outputs - 1 => [self.unserving(s, x, y), 0][(x == 0) as usize],
            s if x == 0 => (s + 1) % goal,
            s if x == inputs - 1 && s > 1 => s - 1,
            _ => goal,
        };
        let mask = ((1u32 << inputs) - 2) as u16;
        self.given(moves(self.n, (i, o), law), mask)
    }
}

/// An automaton made for many looks.
pub fn longest(mode: Mode, n: usize, i: usize, o: usize) -> Given {
    let shape = Shape { n, heads: n / 3, chain: n - 2 - n / 3 };
    match mode {
        Mode::Fair => shape.fair(i, o),
        Mode::Stable => shape.ladder(i, o),
    }
}

/// An automaton made for a bad ratio to a solver that has sets of successors.
pub fn crowded(mode: Mode, n: usize, i: usize, o: usize) -> Given {
    let shape = Shape { n, heads: n / 8, chain: n / 4 };
    match mode {
        Mode::Fair => shape.fair(i, o),
        Mode::Stable => shape.stable(i, o),
    }
}

/// Moves anywhere, one goal in eight, the condition for every other input.
pub fn random(n: usize, i: usize, o: usize, seed: u64) -> Given {
    let mut chance = Chance::new(seed, n as u64, (i * 8 + o) as u64);
    let moves = (0..n << (i + o)).map(|_| chance.below(n) as u8).collect();
    let marks = (0..n).map(|_| chance.one_in(8) as u8).collect();
    Given { n, moves, marks, start: 0, mask: (0x5555u32 & ((1 << (1 << i)) - 1)) as u16 }
}
