//! The call for a rule: texts, refusals with several faults at once, buffers, and rules
//! with many states.

use crate::capi::{self, mode_byte, Told};
use crate::common::*;
use crate::tally::{Served, Tally};
use solver::calls::{game_of_given, shares, solve_rule, Buffers, Given, Refusal, Verdict};
use solver::chance::Chance;
use solver::judge::judge;
use solver::large::LARGE;
use solver::makers::{any_condition, any_text, damaged, good_condition, rich_rule, row_rule, rule_text, with_blanks};
use solver::reader::read;
use solver::tree::condition_mask;
use solver::wording::Wording;
use solver::{Mode, STATES};

/// What a call for a rule comes to.
pub type Answer = Result<Verdict, Refusal>;

/// One call for a rule.
pub struct Case {
    pub i: usize,
    pub o: usize,
    pub mode: Mode,
    pub rule: Vec<u8>,
    pub condition: Vec<u8>,
    pub moves: Lent,
    pub marks: Lent,
    pub station: Lent,
    pub outside: Lent,
}

/// What the solver tells one who lends nothing.
pub fn told(i: usize, o: usize, rule: &[u8], condition: &[u8]) -> Refusal {
    solve_rule(i, o, Mode::Fair, rule, condition, &mut Buffers::default()).expect_err("a rule has a state")
}

/// The number of states that the buffers must have room for; the most where the rule or its condition is refused.
fn states(i: usize, o: usize, rule: &[u8], condition: &[u8]) -> usize {
    told(i, o, rule, condition).needed.unwrap_or(STATES)
}

impl Case {
    /// A case with buffers whose lengths are chosen by `length` from the exact ones (for counts out of range, those of 4).
    pub fn new(
        chance: &mut Chance,
        (i, o): (usize, usize),
        rule: Vec<u8>,
        condition: Vec<u8>,
        length: fn(&mut Chance, usize) -> usize,
    ) -> Case {
        let mode = any_mode(chance);
        let n = states(i, o, &rule, &condition);
        let [moves, marks, station, outside] = shares(i.min(4), o.min(4), n).map(|share| {
            let told = length(chance, share);
            Lent::new(chance, told)
        });
        Case { i, o, mode, rule, condition, moves, marks, station, outside }
    }

    /// The same case with other lengths.
    pub fn lending(mut self, chance: &mut Chance, lengths: [usize; 4]) -> Case {
        let lent = [&mut self.moves, &mut self.marks, &mut self.station, &mut self.outside];
        for (buffer, told) in lent.into_iter().zip(lengths) {
            *buffer = Lent::new(chance, told);
        }
        self
    }

    /// The lengths of the four buffers.
    pub fn lengths(&self) -> [usize; 4] {
        [&self.moves, &self.marks, &self.station, &self.outside].map(|buffer| buffer.told)
    }

    /// The library's answer.
    fn call(&mut self, any: u8) -> Told {
        capi::solve_rule(
            self.i,
            self.o,
            mode_byte(self.mode, any),
            &self.rule,
            &self.condition,
            &mut self.moves,
            &mut self.marks,
            &mut self.station,
            &mut self.outside,
        )
    }

    /// The solver's answer and its buffers after.
    fn wanted(&self) -> (Answer, Buffers) {
        let (moves, marks) = (self.moves.old(), self.marks.old());
        let mut buffers = Buffers { moves, marks, station: self.station.old(), outside: self.outside.old() };
        let answer = solve_rule(self.i, self.o, self.mode, &self.rule, &self.condition, &mut buffers);
        (answer, buffers)
    }

    /// Compares all that the call writes, and has the tables judged; hands back what the call came to.
    pub fn compare(&mut self, any: u8, tally: &mut Tally) -> Result<Answer, String> {
        let told = self.call(any);
        let (wanted, buffers) = self.wanted();
        check_number(&told, wanted.map(|_| ()))?;
        let states = wanted.map_or_else(|refusal| refusal.needed.unwrap_or(0), |verdict| verdict.n);
        check_value("n", told.n, states)?;
        check_value("round", told.round, wanted.map_or(0, |verdict| verdict.round))?;
        self.moves.check("moves", &buffers.moves)?;
        self.marks.check("marks", &buffers.marks)?;
        self.station.check("station", &buffers.station)?;
        self.outside.check("outside", &buffers.outside)?;
        match wanted {
            Err(refusal) => self.count_refused(refusal, tally),
            Ok(verdict) => {
                check_answer(told.answer, verdict.can)?;
                let kind = room_kind(&BUFFERS, &self.lengths(), &shares(self.i, self.o, verdict.n));
                tally.count(format!("rule: served, {kind}"));
                self.judged(verdict, tally)?;
            }
        }
        Ok(wanted)
    }

    /// Counts a refusal: with 3 by the buffers that are short, with 4 to 9 and 15 by buffers so short that 3 would come
    /// if it came first, and with 9 also by full ones.
    fn count_refused(&self, refusal: Refusal, tally: &mut Tally) {
        let (number, lengths) = (refusal.number, self.lengths());
        let name = format!("rule: refused {number:2}");
        if let Some(n) = refusal.needed {
            let kind = short_kind(&BUFFERS, &lengths, &shares(self.i, self.o, n));
            tally.count(format!("{name}, {kind}"));
        } else if number > 2 && lengths == [0; 4] {
            tally.count(format!("{name}, all buffers empty"));
        } else if number > 2 && lengths.contains(&0) {
            tally.count(format!("{name}, a buffer empty"));
        } else if number == 9 && lengths == [1; 4] {
            tally.count(format!("{name}, all buffers of one byte"));
        } else if number == 9 && (0..4).all(|k| lengths[k] >= shares(self.i, self.o, STATES)[k]) {
            tally.count(format!("{name}, all buffers full"));
        }
        tally.count(name);
    }

    /// Has the tables judged, and the winners compared with the fixpoints.
    fn judged(&self, verdict: Verdict, tally: &mut Tally) -> Result<(), String> {
        let tree = read(&self.condition, Wording::condition(self.i)).unwrap();
        let mask = condition_mask(&tree, self.i);
        let (moves, marks) = (self.moves.bytes.clone(), self.marks.bytes.clone());
        let given = Given { n: verdict.n, moves, marks, start: 0, mask };
        let game = &game_of_given(self.i, self.o, self.mode, &given);
        let (station, outside) = (&self.station.bytes[..], &self.outside.bytes[..]);
        let wins = &judge(game, 0, verdict.round, station, outside)?[..];
        if wins != solver::game::winners(game) {
            return Err("the winners differ from the fixpoints, though the judge let the tables pass".into());
        }
        tally.count_served("rule", &Served { game, verdict, wins, station, outside });
        check_answer(verdict.can as u8, wins[0])
    }

    /// The case in a form that can be typed in again.
    pub fn print(&self, what: String) -> String {
        format!(
            "{what}\nsolve_rule i={} o={} mode={:?}\nrule {}\ncondition {}\nlengths moves={} marks={} station={} outside={}",
            self.i, self.o, self.mode, shown(&self.rule), shown(&self.condition),
            self.moves.told, self.marks.told, self.station.told, self.outside.told
        )
    }

    /// Compares and prints the case where something differs.
    fn run(mut self, chance: &mut Chance, tally: &mut Tally) -> Result<(), String> {
        let any = chance.byte();
        self.compare(any, tally).map(|_| ()).map_err(|what| self.print(what))
    }
}

/// Any texts with small counts, buffers exact.
pub fn texts(chance: &mut Chance, tally: &mut Tally) -> Result<(), String> {
    let most = if chance.one_in(30) { 3 } else { 1 };
    let (i, o) = (wild_count(chance, most), wild_count(chance, most));
    let rule = any_text(chance, i, o);
    let condition = if chance.one_in(4) { any_condition(chance, i) } else { good_condition(chance, i.min(4)) };
    Case::new(chance, (i, o), rule, condition, |_, exact| exact).run(chance, tally)
}

/// A good rule of some size.
pub fn good_rule(chance: &mut Chance, i: usize, o: usize, most: usize, operators: usize) -> Vec<u8> {
    let size = chance.between(2, most);
    let text = rule_text(chance, i.min(4), o.min(4), size, operators);
    if chance.one_in(5) {
        with_blanks(chance, text)
    } else {
        text
    }
}

/// Good rules and conditions: the games on rules.
pub fn games(chance: &mut Chance, tally: &mut Tally) -> Result<(), String> {
    let most = if chance.one_in(10) { 3 } else { 2 };
    let (i, o) = (chance.between(0, most), chance.between(0, most));
    let rich = i + o > 0 && i + o < 5 && chance.one_in(3);
    let rule = if rich { rich_rule(chance, i, o) } else { good_rule(chance, i, o, 16, 4) };
    let condition = good_condition(chance, i);
    Case::new(chance, (i, o), rule, condition, enough).run(chance, tally)
}

/// A text with one fault at will: too long, bad, too many nodes, too many operators.
pub fn faulty(chance: &mut Chance, i: usize, o: usize, temporal: usize) -> Vec<u8> {
    let (i, o) = (i.min(4), o.min(4));
    let good = rule_text(chance, i, o, 6, temporal.min(2));
    match chance.below(8) {
        0 => {
            let length = chance.pick(&[256, 256, 257, 300]);
            let mut text = good;
            text.resize(length, b' ');
            text
        }
        1 => damaged(chance, good),
        2 => rule_text(chance, i, o, 66, temporal),
        3 => [&b"!".repeat(chance.between(62, 66))[..], b"1"].concat(),
        4 => [&b"X".repeat(chance.between(4, 7))[..], &good].concat(),
        5 => {
            let mut text = good;
            text.resize(255, b' ');
            text
        }
        _ => good,
    }
}

/// Several faults at once: counts, lengths, buffers, both texts.
pub fn faults(chance: &mut Chance, tally: &mut Tally) -> Result<(), String> {
    let count = |chance: &mut Chance| if chance.one_in(8) { wild_count(chance, 5) } else { chance.below(3) };
    let (i, o) = (count(chance), count(chance));
    let rule = faulty(chance, i, o, 5);
    let temporal = if chance.one_in(8) { 1 } else { 0 };
    let condition = faulty(chance, i, 0, temporal);
    let length = match chance.below(4) {
        0 => wild_length,
        1 => |_: &mut Chance, _| 0,
        _ => enough,
    };
    Case::new(chance, (i, o), rule, condition, length).run(chance, tally)
}

/// Buffers about the share of n states: one a byte short, exact or longer, empty or cut to fewer states, and the others
/// exact or longer; or all exact, or for some other number of states. Now and then n is asked for first with no
/// buffers, and the library's answer is what is lent.
pub fn buffers(chance: &mut Chance, tally: &mut Tally) -> Result<(), String> {
    let (i, o) = (chance.below(5), chance.below(5));
    let rule = if i + o > 0 && chance.one_in(8) { rich_rule(chance, i, o) } else { good_rule(chance, i, o, 5, 2) };
    let condition = good_condition(chance, i);
    let case = Case::new(chance, (i, o), rule, condition, enough);
    let n = states(i, o, &case.rule, &case.condition);
    let exact = shares(i, o, n);
    let k = chance.below(4);
    let mut lengths = if chance.one_in(2) { exact } else { case.lengths() };
    match chance.below(8) {
        0 | 1 => lengths[k] = exact[k] - 1,
        2 => lengths[k] = exact[k] + chance.pick(&[1, 1, 7, 300]),
        3 => lengths[k] = 0,
        4 => lengths[k] = shares(i, o, chance.below(n))[k],
        5 => lengths = shares(i, o, chance.pick(&[n - 1, n + 1, STATES])),
        6 => return asked(case, chance, tally),
        _ => {}
    }
    case.lending(chance, lengths).run(chance, tally)
}

/// Asks the library for n with no buffers, and lends as much as it says.
fn asked(case: Case, chance: &mut Chance, tally: &mut Tally) -> Result<(), String> {
    let any = chance.byte();
    let mut case = case.lending(chance, [0; 4]);
    let n = case.call(any).n;
    let _ = case.compare(any, tally).map_err(|what| case.print(what))?;
    if n == 0 {
        return Ok(());
    }
    tally.count("rule: asked for n and then lent so much".into());
    let lengths = shares(case.i, case.o, n);
    let mut case = case.lending(chance, lengths);
    match case.compare(any, tally).map_err(|what| case.print(what))? {
        Ok(verdict) if verdict.n == n => Ok(()),
        _ => Err(case.print(format!("asked for n the library said {n}, and lent so much it refuses"))),
    }
}

/// Rules of which most have more than 128 states, with buffers of every length: none, one byte, the share of 128 states
/// or of more, or a byte less.
pub fn many(chance: &mut Chance, tally: &mut Tally) -> Result<(), String> {
    let (i, o, rule) = if chance.one_in(4) {
        let (i, o) = (chance.between(2, 4), chance.between(2, 4));
        (i, o, rich_rule(chance, i, o))
    } else {
        let above: Vec<_> = LARGE.iter().filter(|row| row.0 > STATES).collect();
        let &(_, i, o, rule) = chance.pick(&above);
        (i, o, rule.to_vec())
    };
    let condition = if chance.one_in(8) { any_condition(chance, i) } else { good_condition(chance, i) };
    let case = Case::new(chance, (i, o), rule, condition, enough);
    let full = shares(i, o, STATES);
    let lengths = match chance.below(6) {
        0 => [0; 4],
        1 => [1; 4],
        2 => full,
        3 => shares(i, o, STATES + chance.below(80)),
        4 => full.map(|share| chance.pick(&[0, 1, share - 1, share, share + 1])),
        _ => full.map(|share| wild_length(chance, share)),
    };
    case.lending(chance, lengths).run(chance, tally)
}

/// Rules with many states: the ones of `LARGE`, and random ones.
pub fn large(chance: &mut Chance, tally: &mut Tally) -> Result<(), String> {
    let (i, o, rule) = match chance.below(3) {
        0 => {
            let (_, i, o, rule) = chance.pick(LARGE);
            (i, o, rule.to_vec())
        }
        1 => {
            let (i, o) = (chance.between(1, 4), chance.between(1, 4));
            (i, o, rich_rule(chance, i, o))
        }
        _ => {
            let (i, o) = (chance.between(1, 4), chance.between(1, 4));
            (i, o, good_rule(chance, i, o, 34, 5))
        }
    };
    let condition = if chance.one_in(4) { any_condition(chance, i) } else { good_condition(chance, i) };
    let mut case = Case::new(chance, (i, o), rule, condition, enough);
    let any = chance.byte();
    let answer = case.compare(any, tally).map_err(|what| case.print(what))?;
    if let Some(verdict) = answer.ok().filter(|verdict| verdict.n > 100) {
        tally.count(format!("rule: n {}", if verdict.n < 126 { "101 to 125".into() } else { verdict.n.to_string() }));
    }
    Ok(())
}

/// Rules on which states need the condition more often in a row than the start does.
pub fn rows(chance: &mut Chance, tally: &mut Tally) -> Result<(), String> {
    let (i, o) = (chance.between(1, 2), chance.between(1, 2));
    let rule = row_rule(chance, i, o);
    let condition = if chance.one_in(4) { good_condition(chance, i) } else { b"a".to_vec() };
    let mut case = Case::new(chance, (i, o), rule, condition, enough);
    case.mode = if chance.one_in(8) { Mode::Fair } else { Mode::Stable };
    case.run(chance, tally)
}
