//! Conditions and masks that no input number meets, with every other fault of the two solving calls at once; and some
//! that one input number alone meets.

use crate::common::*;
use crate::givens;
use crate::rules::{faulty, good_rule, told, Answer, Case};
use crate::tally::Tally;
use solver::calls::{shares, solve_given, Refusal};
use solver::chance::Chance;
use solver::conditions::{met_by, met_once, unmet_condition};
use solver::large::LARGE;
use solver::makers::{any_text, damaged, rich_rule};
use solver::STATES;

/// The refusal that this file is about.
const UNMET: Refusal = Refusal::plain(15);

/// A condition that no input number meets, or one alone; now and then damaged, or about as long as a text may be.
fn condition(chance: &mut Chance, i: usize) -> Vec<u8> {
    let i = i.min(4);
    let mut text = if chance.one_in(6) { met_once(chance, i) } else { unmet_condition(chance, i) };
    match chance.below(16) {
        0 => damaged(chance, text),
        1 => {
            let length = chance.pick(&[254, 255, 255, 256, 257, 300]);
            text.resize(length.max(text.len()), b' ');
            text
        }
        _ => text,
    }
}

/// A rule, and what it comes to under the condition `1` if nothing is lent.
struct Free {
    i: usize,
    o: usize,
    rule: Vec<u8>,
    comes_to: Refusal,
}

/// A rule of about 128 states or more, whose number is known.
fn large_rule(chance: &mut Chance) -> Free {
    let (n, i, o, rule) = chance.pick(LARGE);
    let comes_to = if n > STATES { Refusal::plain(9) } else { Refusal::short(n) };
    Free { i, o, rule: rule.to_vec(), comes_to }
}

/// A rule: good, of about 128 states or more, or with a fault.
fn any_rule(chance: &mut Chance) -> Free {
    if chance.one_in(16) {
        return large_rule(chance);
    }
    let (i, o) = (wild_count(chance, 4), wild_count(chance, 4));
    let rule = match chance.below(12) {
        0 => any_text(chance, i, o),
        1 | 2 => faulty(chance, i, o, 5),
        3 if i.min(o) > 0 && i.max(o) < 5 => rich_rule(chance, i, o),
        _ => good_rule(chance, i, o, 8, 2),
    };
    let comes_to = told(i, o, &rule, b"1");
    Free { i, o, rule, comes_to }
}

/// Lengths about the share of the rule's states, whatever the condition is: none, exact, one a byte short, or wild.
fn lengths(chance: &mut Chance, free: &Free) -> [usize; 4] {
    let exact = shares(free.i.min(4), free.o.min(4), free.comes_to.needed.unwrap_or(STATES));
    let mut lengths = exact;
    match chance.below(6) {
        0 => lengths = [0; 4],
        1 => lengths[chance.below(4)] -= 1,
        2 | 3 => lengths = exact.map(|share| wild_length(chance, share)),
        4 => lengths = exact.map(|share| enough(chance, share)),
        _ => {}
    }
    lengths
}

/// What a rule with an unmet condition would come to under the condition `1`.
fn otherwise(case: &Case, free: Refusal) -> &'static str {
    let short = |n: usize| case.lengths().iter().zip(shares(case.i, case.o, n)).any(|(&told, share)| told < share);
    match free.needed {
        None => "9",
        Some(n) if short(n) => "3",
        Some(_) => "an answer",
    }
}

/// Counts what a call came to: 15 by what it is told in place of, others by whether 15 would come after them.
fn count(case: &Case, free: Refusal, answer: Answer, tally: &mut Tally) {
    let unmet = || told(case.i.min(4), 0, b"1", &case.condition) == UNMET;
    match answer {
        Err(UNMET) => tally.count(format!("rule: refused 15, in place of {}", otherwise(case, free))),
        Err(refusal) if unmet() => tally.count(format!("rule: refused {:2}, before 15", refusal.number)),
        Ok(_) if met_by(&case.condition, case.i).count_ones() == 1 => {
            tally.count("rule: served, one input alone meets the condition".into())
        }
        _ => {}
    }
}

/// The rule call under such conditions.
pub fn rules(chance: &mut Chance, tally: &mut Tally) -> Result<(), String> {
    let free = any_rule(chance);
    let condition = condition(chance, free.i);
    let lengths = lengths(chance, &free);
    let Free { i, o, rule, comes_to } = free;
    let mut case = Case::new(chance, (i, o), rule, condition, |_, _| 0).lending(chance, lengths);
    let any = chance.byte();
    let answer = case.compare(any, tally).map_err(|what| case.print(what))?;
    count(&case, comes_to, answer, tally);
    Ok(())
}

/// A mask that no input has, with bits that stand for no input or without; or of one bit.
fn mask(chance: &mut Chance, i: usize) -> u16 {
    let none = !(((1u32 << (1 << i)) - 1) as u16);
    match chance.below(8) {
        0 => 1 << chance.below(1 << i),
        1 => 1 << chance.below(16),
        2 => chance.draw() as u16 & none,
        _ => 0,
    }
}

/// Counts a given automaton's refusal where no input has the condition and 15 comes after it.
fn count_before(case: &givens::Case, tally: &mut Tally) {
    if (0..1 << case.i.min(4)).any(|x| case.given.mask >> x & 1 == 1) {
        return;
    }
    let (mut station, mut outside) = (case.station.old(), case.outside.old());
    let answer = solve_given(case.i, case.o, case.mode, &case.given, &mut station, &mut outside);
    if let Some(refusal) = answer.err().filter(|&refusal| refusal != UNMET) {
        tally.count(format!("given: refused {:2}, before 15", refusal.number));
    }
}

/// The call for a given automaton under such masks, with up to two other faults.
pub fn givens(chance: &mut Chance, tally: &mut Tally) -> Result<(), String> {
    let most = chance.pick(&[1, 3, 8, 128]);
    let n = chance.between(1, most);
    let (i, o) = if n > 20 { (chance.below(3), chance.below(3)) } else { (chance.below(5), chance.below(5)) };
    let mut case = givens::Case::good(chance, i, o, n);
    for _ in 0..chance.below(3) {
        givens::spoil(chance, &mut case);
    }
    case.given.mask = mask(chance, case.i.min(4));
    count_before(&case, tally);
    case.run(chance, tally)
}
