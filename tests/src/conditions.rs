//! Seeded makers of conditions that no input number meets, in many texts, and of conditions that one input number alone
//! meets.

use crate::chance::Chance;
use crate::makers::{rule_text, with_blanks};
use crate::reader::read_plain;
use crate::tree::condition_mask;
use crate::wording::Wording;

/// The input numbers that meet a text, as a mask; none where it is no condition.
pub fn met_by(text: &[u8], i: usize) -> u16 {
    read_plain(text, Wording::condition(i)).map_or(0, |tree| condition_mask(&tree, i))
}

/// A text in parentheses, but for a single mark.
fn closed(text: String) -> String {
    if text.len() == 1 {
        text
    } else {
        format!("({text})")
    }
}

/// Any condition of a few marks, in parentheses.
fn part(chance: &mut Chance, i: usize) -> String {
    let size = chance.pick(&[1, 1, 2, 3, 5, 8]);
    closed(String::from_utf8(rule_text(chance, i, 0, size, 0)).unwrap())
}

/// The k-th input's name, negated or not.
fn literal(k: usize, holds: bool) -> String {
    let name = b"abcd"[k] as char;
    if holds {
        name.to_string()
    } else {
        format!("!{name}")
    }
}

/// What the input number x alone meets, of those over the first so many names.
fn only(names: usize, x: usize) -> String {
    let literals: Vec<String> = (0..names).map(|k| literal(k, x >> k & 1 == 1)).collect();
    if names == 0 {
        "1".into()
    } else {
        literals.join("&")
    }
}

/// What x alone of them does not meet: as a disjunction, or as a negation.
fn all_but(chance: &mut Chance, names: usize, x: usize) -> String {
    if names == 0 || chance.one_in(2) {
        return format!("!({})", only(names, x));
    }
    let literals: Vec<String> = (0..names).map(|k| literal(k, x >> k & 1 == 0)).collect();
    closed(literals.join("|"))
}

/// A conjunction that excludes the input numbers over the first so many names one by one, in some order; all, or all but
/// one.
fn excluded(chance: &mut Chance, names: usize, but: Option<usize>) -> String {
    let turn = chance.below(1 << names);
    let numbers = (0..1 << names).map(|k| k ^ turn).filter(|&x| Some(x) != but);
    let parts: Vec<String> = numbers.map(|x| all_but(chance, names, x)).collect();
    if parts.is_empty() {
        "1".into()
    } else {
        parts.join("&")
    }
}

/// Implications from the first of some literals to the last, with the first and without the last.
fn chain(chance: &mut Chance, i: usize) -> String {
    let length = chance.between(1, 5);
    let literals: Vec<String> =
        (0..length).map(|_| if i == 0 { "1".into() } else { literal(chance.below(i), chance.one_in(2)) }).collect();
    let steps: String = literals.windows(2).map(|pair| format!("({}>{})&", pair[0], pair[1])).collect();
    format!("{}&{steps}!{}", literals[0], literals[length - 1])
}

/// A text that no input number meets, out of others of its kind as deep as `depth` says.
fn never(chance: &mut Chance, i: usize, depth: usize) -> String {
    let some = part(chance, i);
    match chance.below(if depth == 0 { 7 } else { 10 }) {
        0 => "0".into(),
        1 => format!("{some}&!{some}"),
        2 => format!("!({some}|!{some})"),
        3 => format!("!({some}>{some})"),
        4 => format!("({some}>0)&{some}"),
        5 => {
            let names = chance.between(0, i);
            excluded(chance, names, None)
        }
        6 => chain(chance, i),
        7 => format!("{}|{}", closed(never(chance, i, depth - 1)), closed(never(chance, i, depth - 1))),
        8 => format!("{some}&{}", closed(never(chance, i, depth - 1))),
        _ => format!("!({}>{some})", closed(never(chance, i, depth - 1))),
    }
}

/// A text that one input number alone meets.
fn once(chance: &mut Chance, i: usize) -> String {
    let x = chance.below(1 << i);
    let (only, some) = (only(i, x), part(chance, i));
    match chance.below(6) {
        0 => only,
        1 => format!("!{}", closed(all_but(chance, i, x))),
        2 => format!("{}|{only}", closed(never(chance, i, 0))),
        3 => format!("({some}|!{some})&{only}"),
        4 if i < 4 => excluded(chance, i, Some(x)),
        _ => format!("!(({only})>{})", closed(never(chance, i, 0))),
    }
}

/// Parentheses around a text, and blanks in it, now and then.
fn dressed(chance: &mut Chance, mut text: String) -> Vec<u8> {
    while chance.one_in(4) {
        text = format!("({text})");
    }
    if chance.one_in(3) {
        with_blanks(chance, text.into_bytes())
    } else {
        text.into_bytes()
    }
}

/// A condition that no input number meets. A few have more than 64 nodes.
pub fn unmet_condition(chance: &mut Chance, i: usize) -> Vec<u8> {
    let depth = chance.below(3);
    let text = never(chance, i, depth);
    dressed(chance, text)
}

/// A condition that one input number alone meets.
pub fn met_once(chance: &mut Chance, i: usize) -> Vec<u8> {
    let text = once(chance, i);
    dressed(chance, text)
}
