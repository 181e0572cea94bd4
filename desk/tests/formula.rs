//! Short formulas: read back they give the set, and they are not longer than they need to be.

use desk::formula::short;
use solver::chance::Chance;

const NAMES: [&str; 8] = ["cue", "feed", "break", "deck", "live", "bed", "mic", "news"];

/// What is left to read of a formula.
struct Reading<'a> {
    rest: &'a str,
    names: &'a [&'a str],
}

impl Reading<'_> {
    /// Takes a mark if it stands here.
    fn takes(&mut self, mark: &str) -> bool {
        let rest = self.rest.strip_prefix(mark);
        self.rest = rest.unwrap_or(self.rest);
        rest.is_some()
    }

    /// The value of a disjunction for an assignment.
    fn any(&mut self, m: usize) -> bool {
        let mut value = self.all(m);
        while self.takes(" | ") {
            value |= self.all(m);
        }
        value
    }

    /// The value of a conjunction.
    fn all(&mut self, m: usize) -> bool {
        let mut value = self.one(m);
        while self.takes(" & ") {
            value &= self.one(m);
        }
        value
    }

    /// The value of a name, a constant, a negation or a group.
    fn one(&mut self, m: usize) -> bool {
        if self.takes("!") {
            return !self.one(m);
        }
        if self.takes("(") {
            let value = self.any(m);
            assert!(self.takes(")"), "a group is closed before {:?}", self.rest);
            return value;
        }
        if self.takes("0") || self.takes("1") {
            unreachable!("a constant stands alone");
        }
        let end = self.rest.find(|c: char| !c.is_alphanumeric()).unwrap_or(self.rest.len());
        let name = self.names.iter().position(|name| *name == &self.rest[..end]).expect("a name");
        self.rest = &self.rest[end..];
        m >> name & 1 == 1
    }
}

/// The set that a formula stands for.
fn read(text: &str, names: &[&str]) -> Vec<bool> {
    let value = |m| {
        let mut reading = Reading { rest: text, names };
        let value = reading.any(m);
        assert_eq!(reading.rest, "", "{text}");
        value
    };
    match text {
        "0" | "1" => vec![text == "1"; 1 << names.len()],
        _ => (0..1 << names.len()).map(value).collect(),
    }
}

/// How many names stand in a text.
fn count(text: &str) -> usize {
    text.split(|c: char| !c.is_alphabetic()).filter(|word| !word.is_empty()).count()
}

/// The formula of a set, checked against it.
fn checked(set: &[bool], names: &[&str]) -> String {
    let text = short(set, names);
    assert_eq!(read(&text, names), set, "{text}");
    let minterms = set.iter().filter(|is| **is).count();
    assert!(count(&text) <= names.len() * minterms, "{text} has more names than the plain sum");
    assert!(count(&text) <= names.len() * (set.len() - minterms), "{text} has more names than the plain product");
    assert_eq!(text, short(set, names), "twice the same");
    text
}

#[test]
fn all_sets_of_few_names() {
    for k in 0..=3 {
        for set in 0..1u32 << (1 << k) {
            let set: Vec<bool> = (0..1 << k).map(|m| set >> m & 1 == 1).collect();
            checked(&set, &NAMES[..k]);
        }
    }
}

#[test]
fn random_sets_of_many_names() {
    let mut chance = Chance::new(1, 2, 3);
    for k in 4..=8 {
        for _ in 0..40 {
            let (part, whole) = (chance.between(1, 7), 8);
            let set: Vec<bool> = (0..1 << k).map(|_| chance.below(whole) < part).collect();
            checked(&set, &NAMES[..k]);
        }
        for _ in 0..100 {
            // A sum of a few products, as guards are.
            let products: Vec<[usize; 2]> =
                (0..chance.between(1, 4)).map(|_| [0; 2].map(|_| chance.below(1 << k))).collect();
            let set: Vec<bool> = (0..1 << k).map(|m| products.iter().any(|[has, on]| m & has == on & has)).collect();
            let text = checked(&set, &NAMES[..k]);
            let given: usize = products.iter().map(|[has, _]| has.count_ones() as usize).sum();
            assert!(count(&text) <= given, "{text} has more names than the {given} that it was made of");
        }
    }
}

/// Holds the formula of a set to a text.
fn is(text: &str, names: &[&str]) {
    assert_eq!(checked(&read(text, names), names), text);
}

#[test]
fn as_a_person_writes() {
    let (two, three, four) = (&NAMES[..2], &NAMES[..3], &NAMES[..4]);
    for text in ["0", "1", "cue", "!cue", "cue & feed", "cue & !feed", "!cue & !feed", "cue | feed", "!cue | !feed"] {
        is(text, two);
    }
    for text in ["cue & !feed | !cue & feed", "cue & feed | !cue & !feed"] {
        is(text, two);
    }
    for text in ["cue & !feed | break", "!(cue & feed & break)", "(cue | feed) & break", "cue & (feed | break)"] {
        let set = read(text, three);
        assert_eq!(count(&checked(&set, three)), 3, "{text}");
    }
    is("!(cue & feed & break)", three);
    is("!(cue | feed | break)", three);
    is("cue & (feed | break)", three);
    is("cue & !(feed & break & deck)", four);
    is("cue & feed | cue & break | feed & break", three);
    is("(cue | feed) & (break | deck)", four);
    is("cue & feed | break & deck", four);
    is("cue & feed | !cue & break", three);
    let six: Vec<bool> = (0..64usize).map(|m| m.count_ones() >= 2 && m & 1 == 1).collect();
    checked(&six, &NAMES[..6]);
}

#[test]
fn a_reader_of_sets_tells_formulas_apart() {
    let set = read("cue & feed", &NAMES[..2]);
    assert_eq!(set, [false, false, false, true]);
    assert_ne!(read("cue | feed", &NAMES[..2]), set);
    assert_eq!(read("!(cue & feed)", &NAMES[..2]), [true, true, true, false]);
}

#[test]
fn hundreds_of_hard_sets_are_fast() {
    let mut chance = Chance::new(4, 5, 6);
    let began = std::time::Instant::now();
    for _ in 0..30 {
        let set: Vec<bool> = (0..256).map(|_| chance.one_in(2)).collect();
        short(&set, &NAMES);
    }
    assert!(began.elapsed().as_secs() < 20, "{:?}", began.elapsed());
}
