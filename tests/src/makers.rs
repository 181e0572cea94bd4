//! Seeded makers of texts, automata and lists for the comparing programs and the tests.

use crate::chance::Chance;
use crate::conditions::{met_by, unmet_condition};

/// A text under making, with the temporal operators still allowed.
struct Making<'a> {
    chance: &'a mut Chance,
    names: Vec<u8>,
    temporal: usize,
    text: Vec<u8>,
}

/// Names in reach with i inputs and o outputs, and the two constants (rarer than names).
fn names(i: usize, o: usize) -> Vec<u8> {
    let mut list = b"01".to_vec();
    for _ in 0..4 {
        list.extend(&b"abcd"[..i]);
        list.extend(&b"pqrs"[..o]);
    }
    list
}

impl Making<'_> {
    /// Writes a rule of about `size` nodes, with parentheses where grouping needs them and some more.
    fn rule(&mut self, size: usize, wrap: bool) {
        let wrap = wrap || self.chance.one_in(12);
        if wrap {
            self.text.push(b'(');
        }
        match size {
            0 | 1 => {
                let name = self.chance.pick(&self.names);
                self.text.push(name);
            }
            2 => self.prefix(size),
            _ if self.chance.one_in(3) => self.prefix(size),
            _ => self.binary(size),
        }
        if wrap {
            self.text.push(b')');
        }
    }

    /// Writes a prefix mark and its operand.
    fn prefix(&mut self, size: usize) {
        let mark = self.operator(b"XNFG", b"!");
        self.text.push(mark);
        let wrap = size > 2 && !self.chance.one_in(3);
        self.rule(size - 1, wrap);
    }

    /// Writes a binary mark between its operands.
    fn binary(&mut self, size: usize) {
        let left = self.chance.between(1, size - 2);
        let wrap = left > 1 && !self.chance.one_in(3);
        self.rule(left, wrap);
        let mark = self.operator(b"UR", b"&|>");
        self.text.push(mark);
        let right = size - 1 - left;
        let wrap = right > 1 && !self.chance.one_in(3);
        self.rule(right, wrap);
    }

    /// A temporal mark while some are left, or a plain one.
    fn operator(&mut self, temporal: &[u8], plain: &[u8]) -> u8 {
        if self.temporal > 0 && self.chance.one_in(2) {
            self.temporal -= 1;
            return self.chance.pick(temporal);
        }
        self.chance.pick(plain)
    }
}

/// A text of the grammar with about `size` nodes and at most `temporal` temporal operators.
pub fn rule_text(chance: &mut Chance, i: usize, o: usize, size: usize, temporal: usize) -> Vec<u8> {
    let mut making = Making { names: names(i, o), chance, temporal, text: vec![] };
    making.rule(size, false);
    making.text
}

/// Puts blanks at random places.
pub fn with_blanks(chance: &mut Chance, mut text: Vec<u8>) -> Vec<u8> {
    for _ in 0..chance.below(6) {
        let at = chance.between(0, text.len());
        let count = chance.between(1, 3);
        text.splice(at..at, vec![b' '; count]);
    }
    text
}

/// A byte for damaging a text: mostly marks, sometimes any.
fn odd_byte(chance: &mut Chance) -> u8 {
    match chance.below(4) {
        0 => chance.byte(),
        _ => chance.pick(b"abcdpqrs01!XNFGUR&|>() ()UR\t\r\n"),
    }
}

/// Damages a text: bytes changed, put in, taken out, cut, doubled or swapped.
pub fn damaged(chance: &mut Chance, mut text: Vec<u8>) -> Vec<u8> {
    for _ in 0..chance.between(1, 2) {
        let at = chance.between(0, text.len());
        let inside = at < text.len();
        match chance.below(6) {
            0 if inside => text[at] = odd_byte(chance),
            1 => text.insert(at, odd_byte(chance)),
            2 if inside => drop(text.remove(at)),
            3 => text.truncate(at),
            4 if inside => text.insert(at, text[at]),
            5 if at + 1 < text.len() => text.swap(at, at + 1),
            _ => text.push(odd_byte(chance)),
        }
    }
    text
}

/// Random marks, or random bytes.
fn noise(chance: &mut Chance) -> Vec<u8> {
    let most = chance.pick(&[4, 12, 40, 300]);
    let length = chance.below(most + 1);
    let marks = chance.one_in(2);
    (0..length).map(|_| if marks { chance.pick(b"ap01!XU&|>()( ") } else { odd_byte(chance) }).collect()
}

/// A text whose length is near the limit: a small text blown up by blanks, negations or
/// parentheses.
fn long_text(chance: &mut Chance, i: usize, o: usize) -> Vec<u8> {
    let mut text = rule_text(chance, i, o, 5, 2);
    let length = chance.between(240, 300);
    while text.len() < length {
        match chance.below(5) {
            0 => text.insert(0, b'!'),
            1 => text = [b"(", &text[..], b")"].concat(),
            2 => text = [&text[..], b"&", &text[..text.len().min(40)]].concat(),
            _ => {
                let at = chance.between(0, text.len());
                text.splice(at..at, vec![b' '; (length - text.len()).min(20)]);
            }
        }
    }
    text
}

/// A text with about 64 nodes or about five temporal operators.
fn edge_text(chance: &mut Chance, i: usize, o: usize) -> Vec<u8> {
    match chance.below(3) {
        0 => {
            let size = chance.between(62, 67);
            rule_text(chance, i, o, size, 5)
        }
        1 => {
            let size = chance.between(10, 66);
            rule_text(chance, i, o, size, 7)
        }
        _ => {
            let count = chance.between(1, 66);
            let mut text: Vec<u8> = (0..count).map(|_| chance.pick(b"!!!!!!!!!!!!!!XN!!!!!!!!")).collect();
            text.push(chance.pick(b"01"));
            text
        }
    }
}

/// A rule text of any kind: good, damaged, out of reach, long, near a limit, noise.
pub fn any_text(chance: &mut Chance, i: usize, o: usize) -> Vec<u8> {
    let (i, o) = (i.min(4), o.min(4));
    let size = chance.between(1, 20);
    match chance.below(16) {
        0..=5 => {
            let text = rule_text(chance, i, o, size, 5);
            with_blanks(chance, text)
        }
        6..=9 => {
            let text = rule_text(chance, i, o, size, 5);
            let text = with_blanks(chance, text);
            damaged(chance, text)
        }
        10 => rule_text(chance, 4, 4, size, 5),
        11 => long_text(chance, i, o),
        12 | 13 => {
            let text = edge_text(chance, i, o);
            if chance.one_in(4) {
                damaged(chance, text)
            } else {
                text
            }
        }
        _ => noise(chance),
    }
}

/// A condition text of any kind.
pub fn any_condition(chance: &mut Chance, i: usize) -> Vec<u8> {
    let i = i.min(4);
    match chance.below(8) {
        0 => any_text(chance, i, 0),
        1 => {
            let size = chance.between(60, 68);
            rule_text(chance, i, 0, size, 0)
        }
        2 => {
            let text = good_condition(chance, i);
            damaged(chance, text)
        }
        3 => unmet_condition(chance, i),
        _ => good_condition(chance, i),
    }
}

/// A condition that is a text of the grammar and that some input number meets.
pub fn good_condition(chance: &mut Chance, i: usize) -> Vec<u8> {
    let size = chance.pick(&[1, 1, 1, 2, 3, 7]);
    let mut text = rule_text(chance, i, 0, size, 0);
    while met_by(&text, i) == 0 {
        text = rule_text(chance, i, 0, size, 0);
    }
    if chance.one_in(3) {
        with_blanks(chance, text)
    } else {
        text
    }
}

/// Where a move leads, by the shape of the automaton.
fn target(chance: &mut Chance, shape: usize, n: usize, s: usize) -> usize {
    match shape {
        0 => chance.below(n),
        1 => [s, (s + 1).min(n - 1), s.saturating_sub(1)][chance.below(3)],
        2 => [(s + 1) % n, s, (s + n - 1) % n, (s + 2) % n][chance.below(4)],
        3 => [(2 * s + 1) % n, (2 * s + 2) % n, s / 2][chance.below(3)],
        4 => {
            if chance.one_in(20) {
                chance.below(n)
            } else {
                (s + 1).min(n - 1)
            }
        }
        5 => chance.between(s, n - 1),
        _ => {
            if chance.one_in(3) {
                chance.below(n)
            } else {
                [s, (s + 1) % n][chance.below(2)]
            }
        }
    }
}

/// Moves by one law for all states: each letter goes on, stays, goes back, falls to state 0 or
/// leaps to one state; now and then a move breaks the law. Wins take many steps in such automata.
fn lawful(chance: &mut Chance, letters: usize, n: usize) -> Vec<u8> {
    let law: Vec<usize> = (0..letters).map(|_| chance.below(6)).collect();
    let leap = chance.below(n);
    let breaks = chance.pick(&[1000, 100, 20]);
    let mut moves = vec![];
    for s in 0..n {
        for &way in &law {
            let way = if chance.one_in(breaks) { chance.below(7) } else { way };
            let t = match way {
                0 | 1 => (s + 1).min(n - 1),
                2 => s,
                3 => s.saturating_sub(1),
                4 => 0,
                5 => leap,
                _ => chance.below(n),
            };
            moves.push(t as u8);
        }
    }
    moves
}

/// Marks: few or many goals, of any non-zero value; sometimes the last state or a single one.
fn goals(chance: &mut Chance, n: usize) -> Vec<u8> {
    let rarity = chance.pick(&[2, 4, 8, 30, 1000]);
    let mut marks: Vec<u8> = (0..n).map(|_| if chance.one_in(rarity) { 1 | chance.byte() } else { 0 }).collect();
    match chance.below(6) {
        0 => marks[n - 1] = 1,
        1 => marks[chance.below(n)] = 2,
        2 => {
            marks.fill(0);
            marks[n - 1] = 128;
        }
        _ => {}
    }
    marks
}

/// Moves and marks of n states: random, chains, rings, trees, forward only, mixed, or by one law.
pub fn game_shape(chance: &mut Chance, i: usize, o: usize, n: usize) -> (Vec<u8>, Vec<u8>) {
    let letters = 1usize << (i + o);
    let shape = chance.below(10);
    let moves = match shape {
        7.. => lawful(chance, letters, n),
        _ => (0..n * letters).map(|k| target(chance, shape, n, k / letters) as u8).collect(),
    };
    (moves, goals(chance, n))
}

/// Where a move of `round_shape` leads from position k of the way, by the kind of the state there.
fn route(chance: &mut Chance, (kind, last): (usize, usize), k: usize, y: usize, condition: bool) -> usize {
    match (kind, condition) {
        (0 | 1, true) => (k + 1).min(last),
        (0, false) => k,
        (1, false) => chance.between(0, k),
        (2, true) if y == 0 => k,
        (2, true) => chance.between((k + 1).min(last), last),
        (2, false) | (_, true) => last,
        _ => chance.below(last + 1),
    }
}

/// Moves, marks and a mask on which round numbers are large, and in the stable mode those of the states differ much.
/// The states stand on a way to the last one, a goal, in the order of their numbers or against it; or on a ring, whose
/// first one is the goal. A step with the condition goes one state on, or where the station likes, or to the last one;
/// a step without it waits, falls back or goes anywhere.
pub fn round_shape(chance: &mut Chance, i: usize, o: usize, n: usize) -> (Vec<u8>, Vec<u8>, u16) {
    let (inputs, outputs, last) = (1usize << i, 1usize << o, n - 1);
    let all = ((1u32 << inputs) - 1) as u16;
    let mask = if chance.one_in(8) { all } else { (chance.draw() as u16 & all).max(1) };
    let turned = chance.one_in(2);
    let place = |k: usize| if turned { last - k } else { k };
    let steps = chance.pick(&[1, 1, 2, 4]);
    let kinds: Vec<usize> = (0..n).map(|_| if chance.below(4) < steps { 0 } else { chance.below(4) }).collect();
    let (ring, wild) = (chance.one_in(6), chance.pick(&[1000, 200, 30, 8]));
    let mut moves = vec![];
    for k in (0..n).map(place) {
        for letter in 0..inputs * outputs {
            let condition = mask >> (letter % inputs) & 1 == 1;
            let on = route(chance, (kinds[k], last), k, letter / inputs, condition);
            let on = if ring && k == last { 0 } else { on };
            moves.push(place(if chance.one_in(wild) { chance.below(n) } else { on }) as u8);
        }
    }
    let mut marks = vec![0; n];
    marks[place(if ring { 0 } else { last })] = 1;
    if chance.one_in(8) {
        marks[chance.below(n)] = 3;
    }
    (moves, marks, mask)
}

/// Where a move of `outside_shape` leads from position k of the way, by the kind of the state there and of its input.
fn detour(chance: &mut Chance, (kind, last): (usize, usize), k: usize, x: usize, condition: bool) -> usize {
    match (kind, condition) {
        _ if k == last && condition => last,
        _ if k == 0 => 0,
        (0, true) => 0,
        (1, true) => k,
        (_, true) => chance.between(0, k),
        (_, false) if x % 2 == kind % 2 => chance.between(k, (k + 1).min(last)),
        _ => (k + 1).min(last),
    }
}

/// Moves, marks and a mask on which it takes the outside many steps to the condition when fair, and many steps without
/// it when stable. The states stand on a way from a goal to the last one, in the order of their numbers or against it;
/// the last stays where it is under the condition. From the others a step with the condition enters the goal, or stays,
/// or goes back; a step without it goes one state on, or stays where the station likes.
pub fn outside_shape(chance: &mut Chance, i: usize, o: usize, n: usize) -> (Vec<u8>, Vec<u8>, u16) {
    let (inputs, outputs, last) = (1usize << i, 1usize << o, n - 1);
    let mask = (chance.draw() as u16 & ((1u32 << inputs) - 1) as u16).max(1);
    let turned = chance.one_in(2);
    let place = |k: usize| if turned { last - k } else { k };
    let steps = chance.pick(&[1, 2, 4, 4]);
    let kinds: Vec<usize> = (0..n).map(|_| if chance.below(4) < steps { 0 } else { chance.below(4) }).collect();
    let wild = chance.pick(&[1000, 200, 30, 8]);
    let mut moves = vec![];
    for k in (0..n).map(place) {
        for letter in 0..inputs * outputs {
            let x = letter % inputs;
            let on = detour(chance, (kinds[k], last), k, x, mask >> x & 1 == 1);
            moves.push(place(if chance.one_in(wild) { chance.below(n) } else { on }) as u8);
        }
    }
    let mut marks = vec![0; n];
    marks[place(0)] = 1;
    (moves, marks, mask)
}

/// A name in reach, sometimes negated; i or o is at least 1.
fn literal(chance: &mut Chance, i: usize, o: usize) -> String {
    let name = chance.pick(&[&b"abcd"[..i], &b"pqrs"[..o]].concat()) as char;
    if chance.one_in(4) {
        format!("!{name}")
    } else {
        name.to_string()
    }
}

/// A small part of a rich rule, temporal while some operators are left.
fn rich_part(chance: &mut Chance, i: usize, o: usize, left: &mut usize) -> String {
    let [a, b, c] = [0; 3].map(|_| literal(chance, i, o));
    if *left == 0 {
        return format!("({a}{}{b})", chance.pick(&['|', '>', '&']));
    }
    *left -= 1;
    match chance.below(8) {
        0 => format!("({a}|F{b})"),
        1 => format!("({a}>G{b})"),
        2 => format!("({c}|({a}R{b}))"),
        3 => format!("({c}&({a}U{b}))"),
        _ => format!("({a}|G{b})"),
    }
}

/// A rule of a family that often has fifty to two hundred states.
pub fn rich_rule(chance: &mut Chance, i: usize, o: usize) -> Vec<u8> {
    let mut operators = 4;
    let mut side = |chance: &mut Chance, count: usize| {
        let parts: Vec<String> = (0..count).map(|_| rich_part(chance, i, o, &mut operators)).collect();
        parts.join("&")
    };
    let (few, many) = (chance.below(3), chance.between(2, 4));
    let (left, right) = (side(chance, few), side(chance, many));
    let middle = chance.pick(&['U', 'U', 'R']);
    let text = if few == 0 { format!("F({right})") } else { format!("({left}){middle}({right})") };
    text.into_bytes()
}

/// Steps that need the condition's name, `a`, so many times in a row at the most, with as many operators: a step
/// without it begins the row again, or leads to the end of the row.
fn in_a_row(chance: &mut Chance, i: usize, o: usize, length: usize) -> String {
    if chance.one_in(2) {
        return (0..length).fold("1".to_string(), |row, _| format!("(!a|X{row})"));
    }
    let row = (1..length).fold("a".to_string(), |row, _| format!("(a&X{row})"));
    match chance.below(6) {
        0 => format!("({}|F{row})", literal(chance, i, o)),
        1 => format!("({}U{row})", literal(chance, i, o)),
        2 => format!("X{row}"),
        _ => format!("F{row}"),
    }
}

/// A rule in which the station chooses, at the first step or later, between rows of different lengths, so that in the
/// stable mode with the condition `a` the states' needs differ; sometimes it can do without them at the first step. i
/// and o are at least 1.
pub fn row_rule(chance: &mut Chance, i: usize, o: usize) -> Vec<u8> {
    let wait = chance.below(4);
    let mut left = 5 - wait.min(1);
    let mut choices = vec![];
    while left > 0 && choices.len() < 3 {
        let length = chance.between(1, left.min(4));
        left -= length;
        choices.push(format!("{}&{}", literal(chance, 0, o), in_a_row(chance, i, o, length)));
    }
    let choice = choices.join("|");
    let text = match wait {
        0 => choice,
        1 => format!("X({choice})"),
        2 => format!("{}U({choice})", literal(chance, i, o)),
        _ => format!("{}|X({choice})", literal(chance, 0, o)),
    };
    text.into_bytes()
}
