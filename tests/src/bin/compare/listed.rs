//! Cases that are listed and not drawn: all short texts, every byte value in every kind
//! of place, every length, and all games of two states with one input and one output.

use crate::common::Lent;
use crate::givens::Case;
use crate::tally::Tally;
use crate::trials::{list, run};
use solver::calls::Given;
use solver::chance::Chance;
use solver::makers::{damaged, rule_text};
use solver::Mode;

/// The bytes of the short texts: marks in and out of reach, a blank and a byte that is no mark.
const SHORT: &[u8] = b"abpq01!XNFGUR&|>() z";

/// The count of texts of at most three of them.
pub const SHORT_TEXTS: u64 = 1 + 20 + 20 * 20 + 20 * 20 * 20;

/// The k-th text of at most three bytes, tried with i = o = 1.
pub fn short_text(case: u64, chance: &mut Chance, tally: &mut Tally) -> Result<(), String> {
    let (mut k, mut length) = (case % SHORT_TEXTS, 0);
    while k >= 20u64.pow(length) {
        k -= 20u64.pow(length);
        length += 1;
    }
    let text: Vec<u8> = (0..length).map(|at| SHORT[(k / 20u64.pow(at) % 20) as usize]).collect();
    let letters = list(chance, 1, 1);
    run(1, 1, &text, &letters, tally)
}

/// Places for a byte: what stands before and behind it.
const PLACES: [(&[u8], &[u8]); 16] = [
    (b"", b""),
    (b"", b"a"),
    (b"", b"1"),
    (b"1", b""),
    (b"1", b"1"),
    (b"(", b")"),
    (b"(1", b")"),
    (b"(1", b"1)"),
    (b"(1)", b""),
    (b"(1)", b"1"),
    (b"!", b""),
    (b"1&", b""),
    (b"1&", b"1"),
    (b"1U", b"|0"),
    (b"  ", b"  "),
    (b"X(1>", b")"),
];

/// The count of bytes in places.
pub const BYTES_IN_PLACES: u64 = 256 * 16 * 5;

/// The k-th byte in the k-th place, with some i and o.
pub fn byte_in_place(case: u64, chance: &mut Chance, tally: &mut Tally) -> Result<(), String> {
    let (before, behind) = PLACES[(case / 256 % 16) as usize];
    let text = [before, &[(case % 256) as u8], behind].concat();
    let (i, o) = (chance.below(5), chance.below(5));
    let letters = list(chance, i, o);
    run(i, o, &text, &letters, tally)
}

/// A good text of at most a length, blown up to it by blanks and parentheses.
fn blown_up(chance: &mut Chance, i: usize, o: usize, length: usize) -> Vec<u8> {
    let size = chance.between(1, 1 + (length / 3).min(50));
    let mut text = rule_text(chance, i, o, size, 5);
    if text.len() > length {
        text = vec![b'1'; length.min(1)];
    }
    while text.len() < length {
        if text.len() + 2 <= length && chance.one_in(4) {
            text = [b"(", &text[..], b")"].concat();
        } else {
            let at = chance.between(0, text.len());
            text.insert(at, b' ');
        }
    }
    text
}

/// A text of exactly the length that the case number says, from 0 to 300: good, damaged, or the
/// beginning of a longer one.
pub fn text_of_length(case: u64, chance: &mut Chance, tally: &mut Tally) -> Result<(), String> {
    let length = (case % 301) as usize;
    let (i, o) = (chance.below(5), chance.below(5));
    let mut text = match chance.below(3) {
        0 => blown_up(chance, i, o, length),
        1 => {
            let good = blown_up(chance, i, o, length);
            damaged(chance, good)
        }
        _ => {
            let size = length / 2 + 3;
            rule_text(chance, i, o, size, 5)
        }
    };
    text.resize(length, b' ');
    let letters = list(chance, i, o);
    run(i, o, &text, &letters, tally)
}

/// The count of games of two states with one input and one output; a quarter of them, those with the mask 0, are refused.
pub const TINY_GAMES: u64 = 256 * 4 * 4 * 2 * 2;

/// The k-th of them.
pub fn tiny_game(case: u64, chance: &mut Chance, tally: &mut Tally) -> Result<(), String> {
    let bit = |k: u64| (case >> k & 1) as u8;
    let given = Given {
        n: 2,
        moves: (0..8).map(bit).collect(),
        marks: (8..10).map(bit).collect(),
        mask: (case >> 10 & 3) as u16,
        start: bit(12) as usize,
    };
    let mode = if bit(13) == 0 { Mode::Fair } else { Mode::Stable };
    let (station, outside) = (Lent::new(chance, 4), Lent::new(chance, 2));
    Case { i: 1, o: 1, mode, given, station, outside }.run(chance, tally)
}
