//! Readings in words, read back: by what the words say, a list of steps keeps a rule exactly when the library says so.

use desk::case::Case;
use desk::tree;
use desk::words::{Reading, Words};
use solver::chance::Chance;
use solver::makers::{rich_rule, rule_text};

/// The wires' names, by the bits of a letter.
const NAMES: [&str; 4] = ["cue", "feed", "break", "deck"];

/// A line of words under reading, word by word, and the letter that it is about.
struct Line<'a> {
    words: Vec<&'a str>,
    at: usize,
    letter: u8,
}

impl<'a> Line<'a> {
    /// The words of a line; a parenthesis is one.
    fn of(text: &'a str, letter: u8) -> Line<'a> {
        let marks = ['(', ')'];
        let mut words = Vec::new();
        for word in text.split(' ') {
            let opened = word.trim_start_matches('(');
            let inner = opened.trim_end_matches(')');
            words.extend(word[..word.len() - opened.len()].matches(marks));
            words.push(inner);
            words.extend(opened[inner.len()..].matches(marks));
        }
        Line { words, at: 0, letter }
    }

    /// Takes a word if it is the next one.
    fn takes(&mut self, word: &str) -> bool {
        let found = self.words.get(self.at) == Some(&word);
        self.at += found as usize;
        found
    }

    /// An "if .. then ..", or operands of one word "and" or "or".
    fn whole(&mut self) -> bool {
        if self.takes("if") {
            let first = self.operand();
            assert!(self.takes("then"));
            return self.operand() || !first;
        }
        let first = self.operand();
        for (word, both) in [("and", true), ("or", false)] {
            let mut value = first;
            let mut found = false;
            while self.takes(word) {
                let next = self.operand();
                value = if both { value && next } else { value || next };
                found = true;
            }
            if found {
                return value;
            }
        }
        first
    }

    /// A "not ..", a group, a name or a constant.
    fn operand(&mut self) -> bool {
        if self.takes("not") {
            return !self.operand();
        }
        if self.takes("(") {
            let value = self.whole();
            assert!(self.takes(")"));
            return value;
        }
        let word = self.words[self.at];
        self.at += 1;
        match word {
            "true" => true,
            "false" => false,
            name => {
                let name = name.strip_prefix("<b>").and_then(|name| name.strip_suffix("</b>")).unwrap();
                self.letter >> NAMES.iter().position(|known| *known == name).unwrap() & 1 == 1
            }
        }
    }
}

/// The parts of a list.
fn parts(reading: &Reading) -> (&str, &[Reading]) {
    match reading {
        Reading::List(lead, parts) => (lead, parts),
        Reading::Line(text) => panic!("a list is expected, not '{text}'"),
    }
}

/// The one part of a list with a certain lead.
fn under<'a>(reading: &'a Reading, lead: &str) -> &'a Reading {
    let (found, parts) = parts(reading);
    assert_eq!((found, parts.len()), (lead, 1));
    &parts[0]
}

/// Whether a reading is true at a step of a list.
fn holds(reading: &Reading, steps: &[u8], at: usize) -> bool {
    let (lead, parts) = match reading {
        Reading::Line(text) => {
            let mut line = Line::of(text, steps[at]);
            let value = line.whole();
            assert_eq!(line.at, line.words.len(), "'{text}' is read to its end");
            return value;
        }
        Reading::List(lead, parts) => (&**lead, &parts[..]),
    };
    let later = || at..steps.len();
    match (lead, parts) {
        ("all of these hold:", parts) => parts.iter().all(|part| holds(part, steps, at)),
        ("at least one of these holds:", parts) => parts.iter().any(|part| holds(part, steps, at)),
        ("it is not so that:", [part]) => !holds(part, steps, at),
        ("one thing follows from another:", [first, second]) => {
            holds(under(second, "then this holds too:"), steps, at) || !holds(under(first, "if this holds:"), steps, at)
        }
        ("there is a step after this one, and in it:", [part]) => at + 1 < steps.len() && holds(part, steps, at + 1),
        ("if there is a step after this one, then in it:", [part]) => {
            at + 1 == steps.len() || holds(part, steps, at + 1)
        }
        ("in this step or a later one:", [part]) => later().any(|k| holds(part, steps, k)),
        ("in this step and every later one so far:", [part]) => later().all(|k| holds(part, steps, k)),
        ("both of these hold:", [end, before]) => {
            let end = under(end, "a step comes, this one or a later one, in which:");
            let before = under(before, "and in every step before that one, from this one on:");
            later().any(|k| holds(end, steps, k) && (at..k).all(|l| holds(before, steps, l)))
        }
        (lead, [first, second])
            if lead.starts_with("the first of these two holds in this step and every later one so far, ") =>
        {
            assert!(lead.ends_with("or else up to and including a step in which the second holds as well:"));
            let until = |k: usize| (at..=k).all(|l| holds(first, steps, l));
            until(steps.len() - 1) || later().any(|k| holds(second, steps, k) && until(k))
        }
        (lead, _) => panic!("'{lead}'"),
    }
}

#[test]
fn say_what_the_library_says() {
    let wires = "input cue\ninput feed\noutput break\noutput deck\n";
    let (mut lines, mut lists, mut kept) = (0, 0, 0);
    for number in 0..4000 {
        let mut chance = Chance::new(15, 0, number);
        let (size, temporal) = (chance.between(1, 14), chance.below(6));
        let text =
            if number % 4 == 0 { rich_rule(&mut chance, 2, 2) } else { rule_text(&mut chance, 2, 2, size, temporal) };
        let text = String::from_utf8(text).unwrap();
        let names = |c: char| match c {
            'a' | 'b' | 'p' | 'q' => format!(" {} ", NAMES["abpq".find(c).unwrap()]),
            c => format!("{c} "),
        };
        let file = format!("{wires}rule {}\n", text.chars().map(names).collect::<String>());
        let Ok(case) = Case::of(file.as_bytes()) else { continue };
        let reading = Words::of(&case).reading(&tree::parse(&case.question.rule).unwrap());
        match reading {
            Reading::Line(_) => lines += 1,
            Reading::List(..) => lists += 1,
        }
        for _ in 0..20 {
            let length = chance.between(1, 6);
            let steps: Vec<u8> = chance.bytes(length).iter().map(|byte| byte % 16).collect();
            let said = case.question.satisfied(&steps);
            assert_eq!(holds(&reading, &steps, 0), said, "{text} on {steps:?}: {reading:?}");
            kept += said as usize;
        }
    }
    assert!(lines > 500 && lists > 2000 && kept > 10_000, "{lines} lines, {lists} lists, {kept} kept");
}

/// What a reading is made of must not say more than its parts: no list is empty.
#[test]
fn lists_have_parts() {
    let case = Case::of(b"input cue\ninput feed\noutput break\noutput deck\nrule 1\n").unwrap();
    for text in ["X(a&Fp)", "(aUb)R(p|Gq)", "N1>0", "!(a&b&p&q&a&b&p&q&a&b&p&q&a&b&p&q&a&b&p&q)"] {
        let reading = Words::of(&case).reading(&tree::parse(text).unwrap());
        let mut open = vec![&reading];
        while let Some(reading) = open.pop() {
            if let Reading::List(_, inner) = reading {
                assert!(!inner.is_empty() && !parts(reading).0.is_empty());
                open.extend(inner);
            }
        }
    }
}
