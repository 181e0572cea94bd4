//! How many first bytes of a text can begin some text of the grammar. This is Earley's
//! method: the set of half-read productions after k bytes is empty exactly if no text of the
//! grammar begins with them (every part of this grammar can be finished: `0` is always a text).
//! Blanks may stand anywhere between marks, so they leave the set as it is.

use crate::wording::{Class, Wording};

/// A part of a production's right side: a mark class or a level of the grammar.
#[derive(Clone, Copy, PartialEq)]
enum Part {
    Mark(Class),
    Level(usize),
}

use Class::*;
use Part::*;

/// The grammar: levels 0 implies, 1 or, 2 and, 3 until, 4 tight.
const PRODUCTIONS: [(usize, &[Part]); 11] = [
    (0, &[Level(1)]),
    (0, &[Level(1), Mark(Implies), Level(0)]),
    (1, &[Level(2)]),
    (1, &[Level(2), Mark(Or), Level(1)]),
    (2, &[Level(3)]),
    (2, &[Level(3), Mark(And), Level(2)]),
    (3, &[Level(4)]),
    (3, &[Level(4), Mark(Until), Level(3)]),
    (4, &[Mark(Prefix), Level(4)]),
    (4, &[Mark(Atom)]),
    (4, &[Mark(Open), Level(0), Mark(Close)]),
];

/// A half-read production: how far it was read, and after which mark it began.
#[derive(Clone, Copy, PartialEq)]
struct Item {
    production: usize,
    dot: usize,
    origin: usize,
}

impl Item {
    /// The part that has to come next, or nothing if the production was read whole.
    fn next(&self) -> Option<Part> {
        PRODUCTIONS[self.production].1.get(self.dot).copied()
    }

    /// The same item with its dot one part further.
    fn advanced(self) -> Item {
        Item { dot: self.dot + 1, ..self }
    }
}

/// Items of one set, each once; a table of flags tells quickly which are there.
struct Set {
    items: Vec<Item>,
    flags: Vec<bool>,
}

impl Set {
    /// An empty set after `marks` marks.
    fn new(marks: usize) -> Set {
        Set { items: vec![], flags: vec![false; (marks + 1) * PRODUCTIONS.len() * 4] }
    }

    /// Puts an item in unless it is there.
    fn put(&mut self, item: Item) {
        let flag = (item.origin * PRODUCTIONS.len() + item.production) * 4 + item.dot;
        if !std::mem::replace(&mut self.flags[flag], true) {
            self.items.push(item);
        }
    }

    /// Puts in all productions of a level, beginning after `origin` marks.
    fn predict(&mut self, level: usize, origin: usize) {
        for (production, (from, _)) in PRODUCTIONS.iter().enumerate() {
            if *from == level {
                self.put(Item { production, dot: 0, origin });
            }
        }
    }
}

/// Closes a set: foretells the levels that may begin and completes those that were read whole.
fn close(set: &mut Set, earlier: &[Set]) {
    let here = earlier.len();
    let mut k = 0;
    while k < set.items.len() {
        let item = set.items[k];
        k += 1;
        match item.next() {
            Some(Level(level)) => set.predict(level, here),
            Some(Mark(_)) => {}
            None => complete(set, earlier, item),
        }
    }
}

/// Moves on every item that waited for the level which `item` has read whole.
/// No production is empty, so the waiting set is always an earlier one.
fn complete(set: &mut Set, earlier: &[Set], item: Item) {
    let level = PRODUCTIONS[item.production].0;
    for waiting in &earlier[item.origin].items {
        if waiting.next() == Some(Level(level)) {
            set.put(waiting.advanced());
        }
    }
}

/// The set after one more mark.
fn shift(sets: &[Set], class: Class) -> Set {
    let mut next = Set::new(sets.len());
    for item in &sets[sets.len() - 1].items {
        if item.next() == Some(Mark(class)) {
            next.put(item.advanced());
        }
    }
    close(&mut next, sets);
    next
}

/// The specification's place: the count of first bytes that can begin a text, at most the text's length.
pub fn longest_viable(text: &[u8], wording: Wording) -> usize {
    let mut first = Set::new(0);
    first.predict(0, 0);
    close(&mut first, &[]);
    let mut sets = vec![first];
    for (place, &byte) in text.iter().enumerate() {
        if byte == b' ' {
            continue;
        }
        let Some(class) = wording.class(byte) else { return place };
        let next = shift(&sets, class);
        if next.items.is_empty() {
            return place;
        }
        sets.push(next);
    }
    text.len()
}

/// Whether Earley's method takes the whole text as one of the grammar.
pub fn accepts(text: &[u8], wording: Wording) -> bool {
    let mut first = Set::new(0);
    first.predict(0, 0);
    close(&mut first, &[]);
    let mut sets = vec![first];
    for &byte in text.iter().filter(|&&byte| byte != b' ') {
        let Some(class) = wording.class(byte) else { return false };
        sets.push(shift(&sets, class));
    }
    let last = &sets[sets.len() - 1].items;
    last.iter().any(|item| item.origin == 0 && item.next().is_none() && PRODUCTIONS[item.production].0 == 0)
}
