//! One plain function for each call of include/airtable.h, which hands back every value that
//! the call may have written.

use crate::common::{Lent, SENTINEL};
use solver::header::{airtable_follow, airtable_solve_given, airtable_solve_rule, airtable_try_rule};
use solver::Mode;

/// What a call handed back: the number, and the values it may have written.
#[derive(Clone, Copy, Debug)]
pub struct Told {
    pub number: u8,
    pub answer: u8,
    pub n: usize,
    pub round: usize,
    pub place: usize,
}

/// The values before a call, which no call would hand back by itself.
const NOTHING: Told = Told { number: 0, answer: ODD, n: SENTINEL, round: SENTINEL, place: SENTINEL };

/// What the follower handed back.
#[derive(Clone, Copy, Debug)]
pub struct Followed {
    pub number: u8,
    pub state: usize,
    pub reached: u8,
    pub row: u8,
    pub output: u8,
    pub place: usize,
}

/// A byte no call would hand back by itself.
pub const ODD: u8 = 0xA5;

/// The mode as a byte: 1 is stable, any other fair.
pub fn mode_byte(mode: Mode, any: u8) -> u8 {
    match mode {
        Mode::Stable => 1,
        Mode::Fair if any == 1 => 0,
        Mode::Fair => any,
    }
}

/// Where lent bytes begin; nowhere if there are none.
fn first(bytes: &[u8]) -> *const u8 {
    if bytes.is_empty() {
        std::ptr::null()
    } else {
        bytes.as_ptr()
    }
}

/// The library's call for a rule.
#[allow(clippy::too_many_arguments)]
pub fn solve_rule(
    i: usize,
    o: usize,
    mode: u8,
    rule: &[u8],
    condition: &[u8],
    moves: &mut Lent,
    marks: &mut Lent,
    station: &mut Lent,
    outside: &mut Lent,
) -> Told {
    let mut told = NOTHING;
    told.number = unsafe {
        airtable_solve_rule(
            i,
            o,
            mode,
            first(rule),
            rule.len(),
            first(condition),
            condition.len(),
            moves.pointer(),
            moves.told,
            marks.pointer(),
            marks.told,
            station.pointer(),
            station.told,
            outside.pointer(),
            outside.told,
            &mut told.answer,
            &mut told.n,
            &mut told.round,
            &mut told.place,
        )
    };
    told
}

/// The library's call for a given automaton.
#[allow(clippy::too_many_arguments)]
pub fn solve_given(
    i: usize,
    o: usize,
    mode: u8,
    n: usize,
    moves: &[u8],
    marks: &[u8],
    start: usize,
    mask: u16,
    station: &mut Lent,
    outside: &mut Lent,
) -> Told {
    let mut told = NOTHING;
    told.number = unsafe {
        airtable_solve_given(
            i,
            o,
            mode,
            n,
            first(moves),
            moves.len(),
            first(marks),
            marks.len(),
            start,
            mask,
            station.pointer(),
            station.told,
            outside.pointer(),
            outside.told,
            &mut told.answer,
            &mut told.round,
            &mut told.place,
        )
    };
    told
}

/// The library's follower.
#[allow(clippy::too_many_arguments)]
pub fn follow(
    i: usize,
    o: usize,
    n: usize,
    moves: &[u8],
    marks: &[u8],
    station: &[u8],
    input: usize,
    state: usize,
    reached: u8,
) -> Followed {
    let mut told = Followed { number: 0, state, reached, row: ODD, output: ODD, place: SENTINEL };
    told.number = unsafe {
        airtable_follow(
            i,
            o,
            n,
            first(moves),
            moves.len(),
            first(marks),
            marks.len(),
            first(station),
            station.len(),
            input,
            &mut told.state,
            &mut told.reached,
            &mut told.row,
            &mut told.output,
            &mut told.place,
        )
    };
    told
}

/// The library's trial.
pub fn try_rule(i: usize, o: usize, rule: &[u8], letters: &[u8]) -> Told {
    let mut told = NOTHING;
    told.number = unsafe {
        airtable_try_rule(
            i,
            o,
            first(rule),
            rule.len(),
            first(letters),
            letters.len(),
            &mut told.answer,
            &mut told.place,
        )
    };
    told
}
