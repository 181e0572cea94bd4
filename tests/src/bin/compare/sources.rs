//! What the sources state, run through the library: the readings of the specification and the
//! rows of published.tsv. A row that is called valid, an equivalence most often, is tried on lists.

use crate::common::*;
use crate::rules::{Answer, Case};
use crate::tally::Tally;
use crate::trials::run;
use solver::calls::{try_rule, Refusal};
use solver::chance::Chance;
use solver::Mode;

/// What a source states: a verdict with n and, if it is known, the round number; nothing where the verdict is open.
type Stated = Option<(bool, usize, Option<usize>)>;

/// Mode, condition, rule, and verdict with n and the round number, none where it is open; or the refusal.
type Reading = (Mode, &'static str, &'static str, Result<Option<(bool, usize, usize)>, Refusal>);

/// The readings with i = o = 1.
const READINGS: [Reading; 14] = [
    (Mode::Fair, "1", "Fp", Ok(Some((true, 3, 1)))),
    (Mode::Fair, "1", "Fa", Ok(Some((false, 3, 0)))),
    (Mode::Fair, "a", "Fa", Ok(Some((true, 3, 1)))),
    (Mode::Fair, "0", "Fa", Err(Refusal::plain(15))),
    (Mode::Stable, "a", "Ga", Ok(Some((false, 3, 0)))),
    (Mode::Fair, "a", "F(a&Xa)", Ok(Some((false, 4, 0)))),
    (Mode::Stable, "a", "F(a&Xa)", Ok(Some((true, 4, 2)))),
    (Mode::Fair, "1", "Xa", Ok(Some((false, 4, 0)))),
    (Mode::Fair, "1", "Na", Ok(Some((true, 4, 1)))),
    (Mode::Fair, "1", "a&p|!a&!p", Ok(Some((true, 3, 1)))),
    (Mode::Fair, "a", "pUa", Ok(Some((true, 4, 1)))),
    (Mode::Fair, "1", "XXXXXXa", Err(Refusal::plain(6))),
    (Mode::Fair, "1", "", Err(Refusal::placed(4, 0))),
    (Mode::Fair, "1", "XXXXXa", Ok(None)),
];

/// The count of readings, the one with i = o = 4 included.
pub const READINGS_COUNT: u64 = 15;

/// The count of published rows.
pub const PUBLISHED_COUNT: u64 = 34;

/// The published rows, field by field.
fn rows() -> Vec<Vec<&'static str>> {
    include_str!("../../../published.tsv").lines().skip(1).map(|line| line.split('\t').collect()).collect()
}

/// One rule compared, and the verdict held against what is stated.
fn stated(
    chance: &mut Chance,
    (i, o): (usize, usize),
    mode: Mode,
    condition: &str,
    rule: &str,
    wanted: Stated,
    tally: &mut Tally,
) -> Result<Answer, String> {
    let mut case = Case::new(chance, (i, o), rule.into(), condition.into(), enough);
    case.mode = mode;
    let answer = case.compare(1, tally).map_err(|what| case.print(what))?;
    match (wanted, answer) {
        (Some((can, n, round)), Ok(told))
            if (told.can, told.n) == (can, n) && round.is_none_or(|r| told.round == r) =>
        {
            Ok(answer)
        }
        (None, _) => Ok(answer),
        _ => Err(case.print(format!("the source states {wanted:?}"))),
    }
}

/// The k-th reading of the specification.
pub fn reading(case: u64, chance: &mut Chance, tally: &mut Tally) -> Result<(), String> {
    let wide = (Mode::Fair, "1", "F((a|Gp)&(b|Gq)&(c|Gr)&(d|Gs))", Err(Refusal::plain(9)));
    let names = if READINGS.len() as u64 > case { 1 } else { 4 };
    let &(mode, condition, rule, wanted) = READINGS.get(case as usize).unwrap_or(&wide);
    let verdict = wanted.ok().flatten().map(|(can, n, round)| (can, n, Some(round)));
    let answer = stated(chance, (names, names), mode, condition, rule, verdict, tally)?;
    if answer.err() == wanted.err() {
        Ok(())
    } else {
        Err(format!("{rule:?} under {condition:?}: {answer:?}, the specification states {wanted:?}"))
    }
}

/// The k-th published row.
pub fn published(case: u64, chance: &mut Chance, tally: &mut Tally) -> Result<(), String> {
    let rows = rows();
    assert_eq!(rows.len() as u64, PUBLISHED_COUNT);
    let row = &rows[case as usize % rows.len()];
    let number = |k: usize| row[k].parse::<usize>().unwrap();
    let mode = if row[3] == "fair" { Mode::Fair } else { Mode::Stable };
    let size = (number(1), number(2));
    let fits = number(9) <= 5 && number(10) <= 64 && number(8) <= 128;
    match row[7] {
        "can" | "cannot" if fits => {
            stated(chance, size, mode, row[4], row[5], Some((row[7] == "can", number(8), None)), tally).map(|_| ())
        }
        "can" | "cannot" => stated(chance, size, mode, row[4], row[5], None, tally).map(|_| ()),
        answer => valid(size, row[5], answer == "valid", tally),
    }
}

/// Tries a rule on every list of one to three letters: all satisfy it if it is valid, and some list does not if it isn't.
fn valid((i, o): (usize, usize), rule: &str, valid: bool, tally: &mut Tally) -> Result<(), String> {
    let letters = 1usize << (i + o);
    let mut all = true;
    for length in 1..4u32 {
        for k in 0..letters.pow(length).min(20_000) {
            let list: Vec<u8> = (0..length).map(|at| (k / letters.pow(at) % letters) as u8).collect();
            run(i, o, rule.as_bytes(), &list, tally)?;
            all &= try_rule(i, o, rule.as_bytes(), &list) == Ok(true);
        }
    }
    if all == valid {
        Ok(())
    } else {
        Err(format!("{rule}: the source says valid {valid}"))
    }
}
