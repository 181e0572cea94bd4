//! The trial on texts and lists of every kind.

use crate::capi;
use crate::common::{check_answer, check_number, hex, shown, wild_count};
use crate::tally::Tally;
use solver::calls::try_rule;
use solver::chance::Chance;
use solver::makers::{any_text, rule_text, with_blanks};

/// A list of letters, mostly in range.
pub fn list(chance: &mut Chance, i: usize, o: usize) -> Vec<u8> {
    let letters = 1usize << (i.min(4) + o.min(4));
    let length = if chance.one_in(200) { chance.pick(&[150, 700]) } else { chance.pick(&[0, 1, 2, 3, 5, 8, 40]) };
    let length = chance.between(0, length);
    let wild = chance.one_in(6);
    let rarity = if length > 255 { 400 } else { 8 };
    let letter = |_| if wild && chance.one_in(rarity) { chance.byte() } else { chance.below(letters) as u8 };
    (0..length).map(letter).collect()
}

/// One trial compared; where something differs the input is printed.
pub fn run(i: usize, o: usize, rule: &[u8], letters: &[u8], tally: &mut Tally) -> Result<(), String> {
    compare(i, o, rule, letters, tally)
        .map_err(|what| format!("{what}\ntry_rule i={i} o={o}\nrule {}\nletters hex {}", shown(rule), hex(letters)))
}

/// One trial compared.
fn compare(i: usize, o: usize, rule: &[u8], letters: &[u8], tally: &mut Tally) -> Result<(), String> {
    let told = capi::try_rule(i, o, rule, letters);
    let wanted = try_rule(i, o, rule, letters);
    check_number(&told, wanted.map(|_| ()))?;
    match wanted {
        Ok(satisfied) => {
            tally.count(format!("trial: satisfied {satisfied}"));
            check_answer(told.answer, satisfied)
        }
        Err(refusal) => {
            tally.count(format!("trial: refused {}", refusal.number));
            Ok(())
        }
    }
}

/// A trial of any text.
pub fn any(chance: &mut Chance, tally: &mut Tally) -> Result<(), String> {
    let (i, o) = (wild_count(chance, 4), wild_count(chance, 4));
    let rule = any_text(chance, i, o);
    let letters = list(chance, i, o);
    run(i, o, &rule, &letters, tally)
}

/// A trial of a good rule on a good list, for the meaning alone.
pub fn good(chance: &mut Chance, tally: &mut Tally) -> Result<(), String> {
    let (i, o) = (chance.below(5), chance.below(5));
    let size = chance.between(2, 30);
    let text = rule_text(chance, i, o, size, 5);
    let rule = if chance.one_in(4) { with_blanks(chance, text) } else { text };
    let length = chance.between(1, 40);
    let letters: Vec<u8> = (0..length).map(|_| chance.below(1 << (i + o)) as u8).collect();
    run(i, o, &rule, &letters, tally)
}
