//! Plays on rules by the letter of the specification: the library's tables are followed step by step, and
//! after each step the list of letters so far is asked for by the meaning of the rule, position by
//! position, by the library's trial, and by the mark of the state entered; all three must agree. On "can" the condition has
//! come fewer times than the round number as long as no list has satisfied the rule.

use crate::capi;
use crate::common::enough;
use crate::follows::{step, Call};
use crate::rules::Case;
use crate::tally::Tally;
use solver::calls::{Lent as Shown, Verdict};
use solver::chance::Chance;
use solver::makers::{good_condition, rich_rule, rule_text};
use solver::meaning::satisfies;
use solver::reader::read;
use solver::tree::{condition_mask, Tree};
use solver::wording::Wording;
use solver::Mode;

/// A play under way.
struct Play<'a> {
    case: &'a Case,
    tree: Tree,
    mask: u16,
    verdict: Verdict,
    state: usize,
    reached: bool,
    letters: Vec<u8>,
    count: usize,
}

impl Play<'_> {
    /// The next letter: the winner's part by its table, the other part by chance. Nothing where the
    /// station's table has no row, which is allowed after a goal only.
    fn letter(&self, chance: &mut Chance, tally: &mut Tally) -> Result<Option<usize>, String> {
        let (i, o) = (self.case.i, self.case.o);
        if !self.verdict.can {
            let x = self.case.outside.bytes[self.state] as usize;
            return if x < 1 << i { Ok(Some(x + (chance.below(1 << o) << i))) } else { Err(format!("input {x}")) };
        }
        let shown = |lent: &'_ crate::common::Lent| lent.bytes[..lent.told].to_vec();
        let [moves, marks, station] = [&self.case.moves, &self.case.marks, &self.case.station].map(shown);
        let lent = Shown { n: self.verdict.n, moves: &moves, marks: &marks, station: &station };
        let input = chance.below(1 << i);
        let call = Call { i, o, lent, input, state: self.state, reached: self.reached as u8 };
        match step(&call, tally)? {
            Some(step) => Ok(Some(input + ((step.output as usize) << i))),
            None if self.reached => Ok(None),
            None => Err("no row before a goal was entered".into()),
        }
    }

    /// Goes on by a letter and asks in three ways whether the list now satisfies the rule.
    fn go_on(&mut self, letter: usize) -> Result<(), String> {
        let (i, o) = (self.case.i, self.case.o);
        self.letters.push(letter as u8);
        self.state = self.case.moves.bytes[(self.state << (i + o)) + letter] as usize;
        let marked = self.case.marks.bytes[self.state] != 0;
        let told = capi::try_rule(i, o, &self.case.rule, &self.letters);
        let meant = satisfies(&self.tree, i, &self.letters);
        if (told.number, told.answer) != (0, meant as u8) || marked != meant {
            return Err(format!("letters {:?}: mark {marked}, trial {told:?}, meaning {meant}", self.letters));
        }
        if meant && !self.verdict.can {
            return Err(format!("letters {:?} satisfy the rule, though the outside table was followed", self.letters));
        }
        self.reached |= meant;
        self.count_condition(letter % (1 << i))
    }

    /// Counts the steps with the condition, in a row when stable: before a goal fewer than the round number.
    fn count_condition(&mut self, input: usize) -> Result<(), String> {
        let kept = if self.case.mode == Mode::Fair { self.count } else { 0 };
        self.count = if self.mask >> input & 1 == 1 { self.count + 1 } else { kept };
        if self.verdict.can && !self.reached && self.count >= self.verdict.round {
            return Err(format!("letters {:?}: the condition came {} times", self.letters, self.count));
        }
        Ok(())
    }
}

/// A play of some steps on a served case.
fn play(case: &Case, verdict: Verdict, chance: &mut Chance, tally: &mut Tally) -> Result<(), String> {
    let tree = read(&case.rule, Wording::rule(case.i, case.o)).expect("a rule");
    let condition = read(&case.condition, Wording::condition(case.i)).expect("a condition");
    let mask = condition_mask(&condition, case.i);
    let mut play = Play { case, tree, mask, verdict, state: 0, reached: false, letters: vec![], count: 0 };
    for _ in 0..chance.between(1, 24) {
        match play.letter(chance, tally)? {
            Some(letter) => play.go_on(letter)?,
            None => break,
        }
    }
    tally.count(format!(
        "play: {}",
        if !verdict.can {
            "outside"
        } else if play.reached {
            "station, goal"
        } else {
            "station, no goal"
        }
    ));
    Ok(())
}

/// A rule, its tables, and a play on them.
pub fn rule_plays(chance: &mut Chance, tally: &mut Tally) -> Result<(), String> {
    let (i, o) = (chance.between(0, 2), chance.between(0, 2));
    let size = chance.between(3, 16);
    let rich = i + o > 0 && chance.one_in(2);
    let rule = if rich { rich_rule(chance, i, o) } else { rule_text(chance, i, o, size, 4) };
    let condition = good_condition(chance, i);
    let mut case = Case::new(chance, (i, o), rule, condition, enough);
    let Ok(verdict) = case.compare(1, tally).map_err(|what| case.print(what))? else { return Ok(()) };
    play(&case, verdict, chance, tally).map_err(|what| case.print(what))
}
