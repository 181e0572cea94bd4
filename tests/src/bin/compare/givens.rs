//! The call for a given automaton: shapes of every kind, refusals with several faults at
//! once, and buffers.

use crate::capi::{self, mode_byte};
use crate::common::*;
use crate::tally::{Served, Tally};
use solver::calls::{game_of_given, shares, solve_given, Given, Refusal, Verdict};
use solver::chance::Chance;
use solver::judge::judge;
use solver::makers::{game_shape, outside_shape, round_shape};
use solver::{Mode, STATES};

/// One call for a given automaton.
pub struct Case {
    pub i: usize,
    pub o: usize,
    pub mode: Mode,
    pub given: Given,
    pub station: Lent,
    pub outside: Lent,
}

/// A mask that some input has: any, of one input, or of all.
fn met_mask(chance: &mut Chance, i: usize) -> u16 {
    let all = ((1u32 << (1 << i)) - 1) as u16;
    let one = 1 << chance.below(1 << i);
    match (chance.draw() as u16 & all, chance.below(10)) {
        (0, _) | (_, 0) => one,
        (_, 1) => all,
        (mask, _) => mask,
    }
}

impl Case {
    /// A case without faults on n states.
    pub fn good(chance: &mut Chance, i: usize, o: usize, n: usize) -> Case {
        let (mut moves, mut marks) = game_shape(chance, i, o, n);
        if chance.one_in(4) {
            let more = chance.below(20);
            moves.extend(chance.bytes(more));
            marks.extend(chance.bytes(more));
        }
        let mask = met_mask(chance, i);
        let start = chance.below(n);
        Case::on(chance, (i, o), Given { n, moves, marks, start, mask })
    }

    /// A case on an automaton, with buffers that are long enough.
    fn on(chance: &mut Chance, (i, o): (usize, usize), given: Given) -> Case {
        let (station, outside) = (enough(chance, given.n << i), enough(chance, given.n));
        Case {
            i,
            o,
            mode: any_mode(chance),
            given,
            station: Lent::new(chance, station),
            outside: Lent::new(chance, outside),
        }
    }

    /// The lengths of the four buffers.
    fn lengths(&self) -> [usize; 4] {
        [self.given.moves.len(), self.given.marks.len(), self.station.told, self.outside.told]
    }

    /// Counts a refusal: with 3 by the buffers that are short.
    fn count_refused(&self, refusal: Refusal, tally: &mut Tally) {
        let name = format!("given: refused {:2}", refusal.number);
        if let Some(n) = refusal.needed {
            tally.count(format!("{name}, {}", short_kind(&BUFFERS, &self.lengths(), &shares(self.i, self.o, n))));
        }
        tally.count(name);
    }

    /// Compares all that the call writes, and has the tables judged.
    pub fn compare(&mut self, any: u8, tally: &mut Tally) -> Result<(), String> {
        let (moves, marks) = (self.given.moves.clone(), self.given.marks.clone());
        let told = capi::solve_given(
            self.i,
            self.o,
            mode_byte(self.mode, any),
            self.given.n,
            &moves,
            &marks,
            self.given.start,
            self.given.mask,
            &mut self.station,
            &mut self.outside,
        );
        if moves != self.given.moves || marks != self.given.marks {
            return Err("moves or marks were written".into());
        }
        let (mut station, mut outside) = (self.station.old(), self.outside.old());
        let wanted = solve_given(self.i, self.o, self.mode, &self.given, &mut station, &mut outside);
        check_number(&told, wanted.map(|_| ()))?;
        check_value("round", told.round, wanted.map_or(0, |verdict| verdict.round))?;
        self.station.check("station", &station)?;
        self.outside.check("outside", &outside)?;
        match wanted {
            Err(refusal) => self.count_refused(refusal, tally),
            Ok(verdict) => {
                check_answer(told.answer, verdict.can)?;
                let kind = room_kind(&BUFFERS, &self.lengths(), &shares(self.i, self.o, verdict.n));
                tally.count(format!("given: served, {kind}"));
                self.judged(verdict, tally)?;
            }
        }
        Ok(())
    }

    /// Has the tables judged, and the winners compared with the fixpoints.
    fn judged(&self, verdict: Verdict, tally: &mut Tally) -> Result<(), String> {
        let game = &game_of_given(self.i, self.o, self.mode, &self.given);
        let (station, outside) = (&self.station.bytes[..], &self.outside.bytes[..]);
        let wins = &judge(game, self.given.start, verdict.round, station, outside)?[..];
        if wins != solver::game::winners(game) {
            return Err("the winners differ from the fixpoints, though the judge let the tables pass".into());
        }
        tally.count_served("given", &Served { game, verdict, wins, station, outside });
        check_answer(verdict.can as u8, wins[self.given.start])
    }

    /// The case in a form that can be typed in again.
    pub fn print(&self, what: String) -> String {
        let Given { n, moves, marks, start, mask } = &self.given;
        format!(
            "{what}\nsolve_given i={} o={} mode={:?} n={n} start={start} mask={mask:#06x}\nmoves ({} bytes) hex {}\nmarks ({} bytes) hex {}\nlengths station={} outside={}",
            self.i, self.o, self.mode, moves.len(), hex(moves), marks.len(), hex(marks),
            self.station.told, self.outside.told
        )
    }

    /// Compares and prints the case where something differs.
    pub fn run(mut self, chance: &mut Chance, tally: &mut Tally) -> Result<(), String> {
        let any = chance.byte();
        self.compare(any, tally).map_err(|what| self.print(what))
    }
}

/// Small automata without faults.
pub fn small(chance: &mut Chance, tally: &mut Tally) -> Result<(), String> {
    let most = chance.pick(&[2, 4, 8, 16, 30]);
    let n = chance.between(1, most);
    let (i, o) = (chance.below(4), chance.below(3));
    Case::good(chance, i, o, n).run(chance, tally)
}

/// Large automata without faults.
pub fn large(chance: &mut Chance, tally: &mut Tally) -> Result<(), String> {
    let n = if chance.one_in(3) { chance.between(126, 128) } else { chance.between(30, 128) };
    let (i, o) = (chance.below(5), chance.below(5));
    Case::good(chance, i, o, n).run(chance, tally)
}

/// Automata on which distances and counts of the outside are large; mostly small ones.
pub fn outsides(chance: &mut Chance, tally: &mut Tally) -> Result<(), String> {
    let most = chance.pick(&[4, 6, 8, 8, 12, 20, 128]);
    let n = chance.between(1, most);
    let (i, o) = if n > 20 { (chance.below(5), chance.below(5)) } else { (chance.below(3), chance.below(3)) };
    let (moves, marks, mask) = outside_shape(chance, i, o, n);
    let start = chance.below(n);
    Case::on(chance, (i, o), Given { n, moves, marks, start, mask }).run(chance, tally)
}

/// Automata on which round numbers are large and differ from state to state; mostly small ones, of which most states
/// are tried.
pub fn rounds(chance: &mut Chance, tally: &mut Tally) -> Result<(), String> {
    let most = chance.pick(&[4, 6, 8, 8, 12, 20, 128]);
    let n = chance.between(1, most);
    let (i, o) = if n > 20 { (chance.below(5), chance.below(5)) } else { (chance.below(3), chance.below(3)) };
    let (moves, marks, mask) = round_shape(chance, i, o, n);
    let start = chance.below(n);
    Case::on(chance, (i, o), Given { n, moves, marks, start, mask }).run(chance, tally)
}

/// Puts a move of n or more at the first, the last, some place, several, or just beyond the used part.
fn bad_move(chance: &mut Chance, given: &mut Given, used: usize) {
    let byte = chance.between(given.n, 255) as u8;
    for _ in 0..chance.between(1, 2) {
        let at = match chance.below(5) {
            0 => 0,
            1 => used - 1,
            2 => used,
            _ => chance.below(used),
        };
        if at < given.moves.len() {
            given.moves[at] = byte;
        } else if at == given.moves.len() {
            given.moves.push(byte);
        }
    }
}

/// Puts in one fault of the given call, or something that looks like one.
pub fn spoil(chance: &mut Chance, case: &mut Case) {
    let (i, o) = (case.i.min(4), case.o.min(4));
    let n = case.given.n;
    match chance.below(9) {
        0 => case.i = wild_count(chance, 5),
        1 => case.o = wild_count(chance, 5),
        2 => {
            case.given.n =
                chance.pick(&[0, 129, 130, 255, 256, 257, usize::MAX, n.saturating_sub(1), n.saturating_add(1)])
        }
        3 => case.given.start = chance.pick(&[n, n.saturating_add(1), n.saturating_sub(1), 128, 255, 256, usize::MAX]),
        4 if n > 0 && n < 255 && case.given.moves.len() >= n << (i + o) => {
            bad_move(chance, &mut case.given, n << (i + o))
        }
        5 => case.given.mask |= 1 << chance.below(16),
        6 => case.given.mask = 0,
        7 => {
            let length = wild_length(chance, n.min(STATES) << i);
            case.station = Lent::new(chance, length);
            let length = wild_length(chance, n.min(STATES));
            case.outside = Lent::new(chance, length);
        }
        _ => {
            let (moves, marks) = (wild_length(chance, n.min(STATES) << (i + o)), wild_length(chance, n.min(STATES)));
            if chance.one_in(2) {
                case.given.moves.resize(moves, 0)
            } else {
                case.given.marks.resize(marks, 0)
            }
        }
    }
}

/// One, two or three faults at once.
pub fn faults(chance: &mut Chance, tally: &mut Tally) -> Result<(), String> {
    let most = chance.pick(&[3, 6, 128]);
    let n = chance.between(1, most);
    let (i, o) = (chance.below(3), chance.below(3));
    let mut case = Case::good(chance, i, o, n);
    for _ in 0..chance.between(1, 3) {
        spoil(chance, &mut case);
    }
    case.run(chance, tally)
}

/// Buffers about the share of n states: one a byte short, or longer, or empty, the others exact or longer; or all exact.
/// Now and then a second fault, which comes before or after.
pub fn buffers(chance: &mut Chance, tally: &mut Tally) -> Result<(), String> {
    let most = chance.pick(&[2, 5, 12, 128]);
    let n = chance.between(1, most);
    let (i, o) = if n > 20 { (chance.below(3), chance.below(3)) } else { (chance.below(5), chance.below(5)) };
    let mut case = Case::good(chance, i, o, n);
    let exact = shares(i, o, n);
    let mut lengths = if chance.one_in(2) { exact } else { exact.map(|share| enough(chance, share)) };
    let k = chance.below(4);
    match chance.below(6) {
        0 | 1 => lengths[k] = exact[k] - 1,
        2 => lengths[k] = exact[k] + chance.pick(&[1, 1, 7, 300]),
        3 => lengths[k] = 0,
        4 => lengths = [0; 4],
        _ => {}
    }
    case.given.moves.resize(lengths[0], 0);
    case.given.marks.resize(lengths[1], 0);
    case.station = Lent::new(chance, lengths[2]);
    case.outside = Lent::new(chance, lengths[3]);
    match chance.below(16) {
        0 => case.given.start = n,
        1 => case.given.mask |= 1 << chance.below(16),
        2 => case.given.n = chance.pick(&[0, 129]),
        3 => case.given.mask = 0,
        _ => {}
    }
    case.run(chance, tally)
}
