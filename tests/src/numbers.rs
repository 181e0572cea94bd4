//! The numbers of the states (specification, "Round number" and "Tables"), straight from their meanings. Each is the
//! least budget with which a side can play on from a state, with any memory and whatever the other side does:
//!
//! round     station, fair    a step with the condition costs 1
//! need      station, stable  the same, and after a step without it the budget is m
//! distance  outside, fair    each step costs 1, and one with the condition ends the play well
//! count     outside, stable  a step without the condition costs 1
//!
//! The station has lost where its budget is used up and no goal was entered; the outside where a step enters a goal, or
//! costs more than there is, or, when fair, enters a state that the station wins. The rest of a play depends on no more
//! of the past than on the state and the budget that is left; so all this is found by games on such pairs. The pairs
//! that are safe for a side are what is left of all pairs when those are taken away, again and again, from which it
//! cannot keep to the others.

use crate::game::{greatest, least, Board, States};

/// A number for each state that has one.
pub type Numbers = Vec<Option<usize>>;

/// For each state the place of the first set that has it.
fn first_places(n: usize, sets: &[States]) -> Numbers {
    (0..n).map(|s| sets.iter().position(|set| set >> s & 1 == 1)).collect()
}

/// The rounds of the states that the station wins when fair. A pair is judged by pairs of its own budget and of one
/// less, so the sets of safe states are found one after the other; with a budget of 0 none is.
pub fn rounds(board: &Board) -> Numbers {
    let sets = least(|less| greatest(board.all(), |left| board.answered(left, left, less)));
    first_places(board.game.n, &sets)
}

/// The distances of the states that the outside wins when fair, given who wins each.
pub fn distances(board: &Board, wins: &[bool]) -> Numbers {
    let own = (0..board.game.n).filter(|&s| !wins[s]).fold(0, |set, s| set | 1 << s);
    first_places(board.game.n, &least(|near| board.outside_step(own, near)))
}

/// The counts of the states that the outside wins when stable. The first set is that of a budget of 0.
pub fn counts(board: &Board) -> Numbers {
    let sets = least(|less| greatest(board.all(), |left| board.outside_step(left, less)));
    first_places(board.game.n, &sets[1..])
}

/// Takes pairs of the stable game for a limit away until all that are left are safe: `left` has a set of states for
/// each budget from the limit down to 1. Stops early where the state `start` is taken from the first, if one is named.
fn settle(board: &Board, left: &mut [States], start: Option<usize>) {
    loop {
        let mut changed = false;
        for place in (0..left.len()).rev() {
            changed |= settle_budget(board, left, place);
        }
        if !changed || start.is_some_and(|s| left[0] >> s & 1 == 0) {
            return;
        }
    }
}

/// Takes pairs of one budget away; says whether there were any.
fn settle_budget(board: &Board, left: &mut [States], place: usize) -> bool {
    let before = left[place];
    loop {
        let less = left.get(place + 1).copied().unwrap_or(0);
        let safe = board.answered(left[place], left[0], less);
        if safe == left[place] {
            return safe != before;
        }
        left[place] = safe;
    }
}

/// The needs, given the safe states of each budget from the limit down to 1. Above the limit a pair is judged by pairs
/// of the limit and of one less.
fn needs_of(board: &Board, safe: Vec<States>) -> Numbers {
    let limit = safe[0];
    let mut sets: Vec<States> = [0].into_iter().chain(safe.into_iter().rev()).collect();
    loop {
        let less = sets[sets.len() - 1];
        let next = board.answered(board.all(), limit, less);
        if next == less {
            return first_places(board.game.n, &sets);
        }
        sets.push(next);
    }
}

/// The needs of the states for m, which is 1 or more, when stable.
pub fn needs(board: &Board, m: usize) -> Numbers {
    let mut left = vec![board.all(); m];
    settle(board, &mut left, None);
    needs_of(board, left)
}

/// The round number of a start that the station wins when stable, and the needs of the states for it.
pub fn start_needs(board: &Board, start: usize) -> (usize, Numbers) {
    for k in 1..=board.game.n {
        let mut left = vec![board.all(); k];
        settle(board, &mut left, Some(start));
        if left[0] >> start & 1 == 1 {
            return (k, needs_of(board, left));
        }
    }
    panic!("a state that the station wins has a round number of at most n");
}
