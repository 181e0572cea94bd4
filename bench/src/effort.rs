//! How much a solver by ranks has to do on a game: rounds, passes, looks at states and
//! steps that are tried. Counted on sets of states after docs/THEORY.md, section 4, with a search
//! from output 0 on where the library begins at its witness; it is not timed.

use solver::game::Game;
use solver::Mode;

/// Counts of one game.
#[derive(Clone, Copy, Debug, Default)]
pub struct Effort {
    pub rounds: usize,
    pub passes: usize,
    pub looks: usize,
    pub steps: usize,
}

/// Tries the outputs for one input in ascending order; says whether one serves.
fn input_served(game: &Game, s: usize, x: usize, (won, lost): (u128, u128), effort: &mut Effort) -> bool {
    for y in 0..game.outputs() {
        effort.steps += 1;
        let t = game.step(s, x, y);
        let is_in = |set: u128| set >> t & 1 == 1;
        if game.goals[t] || (!is_in(lost) && (is_in(won) || !game.condition(x))) {
            return true;
        }
    }
    false
}

/// Whether every input of a state is served; the first that is not ends the look.
fn served(game: &Game, s: usize, sets: (u128, u128), effort: &mut Effort) -> bool {
    effort.looks += 1;
    (0..game.inputs()).all(|x| input_served(game, s, x, sets, effort))
}

/// One round: passes over the states without a rank until one ranks none; hands back the inner set.
fn round(game: &Game, outer: u128, effort: &mut Effort) -> u128 {
    let fair = game.mode == Mode::Fair;
    let mut inner = 0u128;
    loop {
        effort.passes += 1;
        let sets = if fair { (outer, inner) } else { (inner, outer) };
        let free = |s: &usize| (outer | inner) >> s & 1 == 0;
        let fresh = (0..game.n).filter(free).filter(|&s| served(game, s, sets, effort) != fair);
        let fresh = fresh.fold(0u128, |set, s| set | 1 << s);
        if fresh == 0 {
            return inner;
        }
        inner |= fresh;
    }
}

/// Counts a whole game: rounds until one leaves no state without a rank.
pub fn effort(game: &Game) -> Effort {
    let mut effort = Effort::default();
    let mut outer = 0u128;
    let all = if game.n == 128 { !0 } else { (1 << game.n) - 1 };
    loop {
        effort.rounds += 1;
        let fresh = all & !outer & !round(game, outer, &mut effort);
        if fresh == 0 {
            return effort;
        }
        outer |= fresh;
    }
}
