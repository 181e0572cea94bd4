//! The follower along plays on handed-out tables, and on random bytes with faults.

use crate::capi::{self, Followed};
use crate::common::*;
use crate::givens::Case;
use crate::tally::Tally;
use solver::calls::{follow, shares, Lent as Shown, Refusal, Step};
use solver::chance::Chance;

/// One call of the follower.
pub struct Call<'a> {
    pub i: usize,
    pub o: usize,
    pub lent: Shown<'a>,
    pub input: usize,
    pub state: usize,
    pub reached: u8,
}

/// Compares a served follower: a step, or "no row" with the position as it was.
fn check_served(call: &Call, told: Followed, wanted: Option<Step>) -> Result<(), String> {
    match wanted {
        Some(step) => {
            let told_step = (told.row, told.output, told.state, told.reached);
            let wanted = (1, step.output, step.state, step.reached as u8);
            if told_step != wanted {
                return Err(format!("row, output, state, reached {told_step:?}, wanted {wanted:?}"));
            }
        }
        None => check_stays(call, told)?,
    }
    check_value("place", told.place, 0)
}

/// Where no step is taken the position stays, and there is neither a row nor an output.
fn check_stays(call: &Call, told: Followed) -> Result<(), String> {
    if (told.state, told.reached) != (call.state, call.reached) {
        return Err(format!("the position is now {} {}, though no step was taken", told.state, told.reached));
    }
    check_value("row", told.row as usize, 0)?;
    check_value("output without a row", told.output as usize, 0)
}

/// Compares a refusal.
fn check_refused(call: &Call, told: Followed, refusal: Refusal) -> Result<(), String> {
    check_value("place", told.place, refusal.place.unwrap_or(0))?;
    check_stays(call, told)
}

/// Counts a refusal: with 3 by the buffers that are short.
fn count_refused(call: &Call, refusal: Refusal, tally: &mut Tally) {
    let name = format!("follower: refused {:2}", refusal.number);
    if let Some(n) = refusal.needed {
        let Shown { moves, marks, station, .. } = call.lent;
        let told = [moves.len(), marks.len(), station.len()];
        let kind = short_kind(&BUFFERS[..3], &told, &shares(call.i, call.o, n)[..3]);
        tally.count(format!("{name}, {kind}"));
    }
    tally.count(name);
}

/// One call compared; hands back the step.
fn compare(call: &Call, tally: &mut Tally) -> Result<Option<Step>, String> {
    let Shown { n, moves, marks, station } = call.lent;
    let told = capi::follow(call.i, call.o, n, moves, marks, station, call.input, call.state, call.reached);
    let wanted = follow(call.i, call.o, call.lent, call.input, call.state, call.reached != 0);
    let number = wanted.map_or_else(|refusal| refusal.number, |_| 0);
    if told.number != number {
        return Err(format!("number {} (place {}), wanted {wanted:?}", told.number, told.place));
    }
    match wanted {
        Ok(step) => {
            tally.count(format!("follower: {}", if step.is_some() { "step" } else { "no row" }));
            check_served(call, told, step).map(|()| step)
        }
        Err(refusal) => {
            count_refused(call, refusal, tally);
            check_refused(call, told, refusal).map(|()| None)
        }
    }
}

/// The call in a form that can be typed in again.
fn print(call: &Call, what: String) -> String {
    let Shown { n, moves, marks, station } = call.lent;
    format!(
        "{what}\nfollow i={} o={} n={n} input={} state={} reached={}\nmoves ({} bytes) hex {}\nmarks ({} bytes) hex {}\nstation ({} bytes) hex {}",
        call.i, call.o, call.input, call.state, call.reached,
        moves.len(), hex(moves), marks.len(), hex(marks), station.len(), hex(station)
    )
}

/// One call compared; where something differs the call is printed.
pub fn step(call: &Call, tally: &mut Tally) -> Result<Option<Step>, String> {
    compare(call, tally).map_err(|what| print(call, what))
}

/// A play along the tables that the library hands out for a given automaton.
pub fn plays(chance: &mut Chance, tally: &mut Tally) -> Result<(), String> {
    let most = chance.pick(&[3, 8, 20]);
    let n = chance.between(1, most);
    let (i, o) = (chance.below(4), chance.below(3));
    let mut case = Case::good(chance, i, o, n);
    case.compare(1, tally).map_err(|what| case.print(what))?;
    let (moves, marks) = (&case.given.moves[..], &case.given.marks[..]);
    let lent = Shown { n, moves, marks, station: &case.station.bytes[..case.station.told] };
    let (mut state, mut reached) = (case.given.start, chance.one_in(4) as u8);
    for _ in 0..chance.between(1, 30) {
        let call = Call { i, o, lent, input: chance.below(1 << i), state, reached };
        match step(&call, tally)? {
            Some(step) => (state, reached) = (step.state, step.reached as u8),
            None => break,
        }
    }
    Ok(())
}

/// A count of states with the odd ones in it.
fn odd_n(chance: &mut Chance, n: usize) -> usize {
    if chance.one_in(12) {
        chance.pick(&[0, 129, 130, 255, 256, usize::MAX])
    } else {
        n
    }
}

/// A number that is mostly below a bound, sometimes at it, sometimes huge.
fn odd_below(chance: &mut Chance, bound: usize) -> usize {
    match chance.below(24) {
        0 => bound,
        1 => chance.pick(&[bound + 1, 16, 255, 256, usize::MAX, 1 << 40]),
        _ => chance.below(bound.max(1)),
    }
}

/// A length that mostly suffices.
fn odd_length(chance: &mut Chance, exact: usize) -> usize {
    if chance.one_in(16) {
        wild_length(chance, exact)
    } else {
        exact + chance.below(3)
    }
}

/// The follower on random bytes, with several faults at once.
pub fn random(chance: &mut Chance, tally: &mut Tally) -> Result<(), String> {
    let count = |chance: &mut Chance| if chance.one_in(10) { wild_count(chance, 5) } else { chance.below(4) };
    let (i, o) = (count(chance), count(chance));
    let most = chance.pick(&[1, 4, 12, 128]);
    let n = chance.between(1, most);
    let (ci, co) = (i.min(4), o.min(4));
    let (moves, marks) = (odd_length(chance, n << (ci + co)), odd_length(chance, n));
    let station = odd_length(chance, n << ci);
    let range = if chance.one_in(2) { n } else { (n + 2).min(256) };
    let moves: Vec<u8> =
        (0..moves).map(|_| if chance.one_in(30) { chance.byte() } else { chance.below(range) as u8 }).collect();
    let marks: Vec<u8> = (0..marks).map(|_| if chance.one_in(3) { chance.byte() } else { 0 }).collect();
    let outputs = (1 << co) + chance.below(2);
    let station: Vec<u8> =
        (0..station).map(|_| if chance.one_in(9) { chance.byte() } else { chance.below(outputs) as u8 }).collect();
    let lent = Shown { n: odd_n(chance, n), moves: &moves, marks: &marks, station: &station };
    let (input, state) = (odd_below(chance, 1 << ci), odd_below(chance, n));
    let reached = chance.pick(&[0, 0, 0, 1, 1, 2, 128, 255]);
    let call = Call { i, o, lent, input, state, reached };
    step(&call, tally).map(|_| ())
}
