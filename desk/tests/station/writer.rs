//! Random station files for a question of the engine, with the place of each token.

use desk::engine::{Mode, Question};
use desk::station::{Token, Wire};
use solver::chance::Chance;

/// Names that may be declared: many begin or end like marks, words and other names.
const NAMES: [&str; 30] = [
    "a", "b", "p", "cue", "cue2", "cue-2", "feed", "feed_ok", "break", "fallback", "_x", "x", "Xcue", "XX", "UU",
    "Fade", "on", "on-air", "not-now", "weak1", "next_", "N0", "F1", "GG-G", "And", "rule-2", "input_1", "goals", "Rp",
    "aU",
];

/// The words of the engine's bytes.
const WORDS: &str = "!not Xnext Feventually Galways Uuntil Rrelease &and |or >implies 1true 0false";

/// Descriptions and comments.
const TEXTS: [&str; 9] = [
    "the cue # is closed",
    "rule F x",
    "\u{fc}ber \u{65e5}\u{672c}",
    "a  b\tc",
    "promise fair 1",
    "x",
    "(weak",
    "'\"<&>",
    "it is there",
];

/// A formula as it was written: its tokens, and the place behind the last one.
pub type Formula = (Vec<Token>, (usize, usize));

/// A file, and all that has to be read from it.
pub struct Written {
    pub file: String,
    pub title: Vec<String>,
    pub inputs: Vec<Wire>,
    pub outputs: Vec<Wire>,
    pub outside: String,
    pub goal: String,
    pub promise: Formula,
    pub rule: Formula,
}

/// A file under writing, the place of its next character, and the names with their bytes.
struct Writer<'a> {
    chance: &'a mut Chance,
    file: String,
    line: usize,
    column: usize,
    names: Vec<(&'static str, u8)>,
}

/// Whether a text begins with a letter, a digit or `_`.
fn is_word(text: &str) -> bool {
    text.starts_with(|c: char| c.is_ascii_alphanumeric() || c == '_')
}

impl Writer<'_> {
    /// Writes a text.
    fn put(&mut self, text: &str) {
        for c in text.chars() {
            self.file.push(c);
            (self.line, self.column) = if c == '\n' { (self.line + 1, 1) } else { (self.line, self.column + 1) };
        }
    }

    /// Writes some blanks and tabs, at least so many.
    fn blanks(&mut self, least: usize) {
        for _ in 0..self.chance.between(least, least + 2) {
            let blank = self.chance.pick(&[" ", " ", " ", "\t"]);
            self.put(blank);
        }
    }

    /// Ends a line.
    fn end_line(&mut self) {
        let end = self.chance.pick(&["\n", "\r\n"]);
        self.put(end);
    }

    /// Writes lines that mean nothing.
    fn idle_lines(&mut self, comments: bool) {
        while self.chance.one_in(4) {
            self.blanks(0);
            if comments && self.chance.one_in(2) {
                self.comment();
            }
            self.end_line();
        }
    }

    /// Writes a comment up to the end of its line.
    fn comment(&mut self) {
        let text = self.chance.pick(&TEXTS);
        self.put("#");
        self.put(text);
    }

    /// Writes what may stand between two tokens; says whether it is more than nothing.
    fn gap(&mut self, needed: bool) -> bool {
        match self.chance.below(12) {
            0..=5 if !needed => return false,
            0..=9 => self.blanks(1),
            _ => {
                self.blanks(0);
                if self.chance.one_in(3) {
                    self.comment();
                }
                self.end_line();
                self.idle_lines(true);
                self.blanks(0);
            }
        }
        true
    }

    /// How a byte is written: a name, a mark or a word.
    fn form(&mut self, byte: u8) -> String {
        if let Some((name, _)) = self.names.iter().find(|(_, named)| *named == byte) {
            return name.to_string();
        }
        let word = if byte == b'N' {
            Some("weak next")
        } else {
            WORDS.split(' ').find_map(|word| word.strip_prefix(byte as char))
        };
        match word {
            Some(word) if self.chance.one_in(2) => word.into(),
            _ => (byte as char).into(),
        }
    }

    /// Whether these words, written together, are read as what they are: each is a name or a one-letter mark, all
    /// together are none and no word, and from the front each is the longest that fits.
    fn may_touch(&self, words: &[String]) -> bool {
        let run = words.concat();
        let is_name = |word: &str| self.names.iter().any(|(name, _)| *name == word);
        let is_mark = |word: &str| ["X", "N", "F", "G", "U", "R", "0", "1"].contains(&word);
        let mut rest = &*run;
        let first = |rest: &str, word: &String| {
            let longest = (1..=rest.len()).rev().find(|&k| is_name(&rest[..k])).unwrap_or(1);
            rest[..longest] == **word
        };
        !is_name(&run)
            && WORDS.split(' ').all(|word| word[1..] != run)
            && words.iter().all(|word| {
                let good = (is_name(word) || is_mark(word)) && first(rest, word);
                rest = &rest[word.len().min(rest.len())..];
                good
            })
    }

    /// Writes a formula.
    fn formula(&mut self, text: &str) -> Formula {
        let mut tokens = vec![];
        let mut run: Vec<String> = vec![];
        for byte in text.bytes() {
            let form = self.form(byte);
            run.push(form.clone());
            let needed = run.len() > 1 && is_word(&form) && !self.may_touch(&run);
            if self.gap(needed) || !is_word(&form) {
                run.clear();
                run.extend(is_word(&form).then(|| form.clone()));
            }
            let (line, column) = (self.line, self.column);
            match &*form {
                "weak next" => {
                    self.put("weak");
                    self.gap(true);
                    self.put("next");
                }
                form => self.put(form),
            }
            let width = if self.line == line { self.column - column } else { 4 };
            tokens.push(Token { byte, line, column, width });
        }
        (tokens, (self.line, self.column))
    }

    /// Writes a wire's line.
    fn wire(&mut self, word: &str, name: &'static str) -> Wire {
        let note = if self.chance.one_in(3) { "" } else { self.chance.pick(&TEXTS) };
        self.put(word);
        self.blanks(1);
        self.put(name);
        self.blanks(if note.is_empty() { 0 } else { 1 });
        self.put(note);
        self.blanks(0);
        Wire { name: name.into(), note: note.into() }
    }

    /// Writes an `outside` or `goal` line.
    fn text_line(&mut self, word: &str) -> String {
        let text = self.chance.pick(&TEXTS);
        self.put(word);
        self.blanks(1);
        self.put(text);
        self.blanks(0);
        text.into()
    }

    /// Writes the promise.
    fn promise(&mut self, question: &Question) -> Formula {
        self.put("promise");
        self.blanks(1);
        self.put(question.mode.word());
        self.gap(true);
        self.formula(&question.condition)
    }

    /// Writes the rule; without a promise line, its place is also that of what is promised.
    fn rule(&mut self, question: &Question) -> (Formula, Formula) {
        let (line, column) = (self.line, self.column);
        let nothing = (vec![Token { byte: b'1', line, column, width: 0 }], (line, column));
        self.put("rule");
        self.blanks(1);
        self.gap(false);
        (self.formula(&question.rule), nothing)
    }

    /// Writes the comments of the title.
    fn title(&mut self) -> Vec<String> {
        let mut title = vec![];
        if self.chance.one_in(5) {
            self.file.push('\u{feff}');
        }
        for _ in 0..self.chance.below(4) {
            let text = self.chance.pick(&["", "", "x", "a # b", "\u{fc}", "rule 1", "x  \t y"]);
            self.blanks(0);
            self.put("#");
            self.blanks(0);
            self.put(text);
            self.blanks(0);
            self.end_line();
            self.idle_lines(false);
            title.extend((!text.is_empty()).then(|| text.to_string()));
        }
        title
    }
}

/// So many different names.
fn some_names(chance: &mut Chance, count: usize) -> Vec<&'static str> {
    let mut pool = NAMES.to_vec();
    (0..count).map(|_| pool.swap_remove(chance.below(pool.len()))).collect()
}

/// The lines of a file in a random order, by a letter each; the inputs' and the outputs' own orders are kept.
fn order(chance: &mut Chance, question: &Question) -> Vec<char> {
    let nothing = question.condition == "1" && question.mode == Mode::Fair;
    let mut lines = vec!['r'];
    lines.extend((!nothing || chance.one_in(2)).then_some('p'));
    lines.extend(chance.one_in(2).then_some('w'));
    lines.extend(chance.one_in(2).then_some('g'));
    lines.extend(vec!['i'; question.inputs]);
    lines.extend(vec!['o'; question.outputs]);
    for k in 1..lines.len() {
        lines.swap(k, chance.between(0, k));
    }
    lines
}

/// Writes a station file for a question whose texts have names and marks only.
pub fn written(chance: &mut Chance, question: &Question) -> Written {
    let names = some_names(chance, question.inputs + question.outputs);
    let order = order(chance, question);
    let mut writer = Writer { chance, file: String::new(), line: 1, column: 1, names: vec![] };
    writer.names = names.iter().copied().zip((b'a'..).take(question.inputs).chain(b'p'..)).collect();
    let title = writer.title();
    let (mut inputs, mut outputs) = (vec![], vec![]);
    let (mut outside, mut goal) = ("the outside".to_string(), "the rule is kept".to_string());
    let (mut promise, mut rule) = (None, None);
    for (k, line) in order.iter().enumerate() {
        if k > 0 {
            writer.end_line();
        }
        writer.idle_lines(k > 0);
        writer.blanks(0);
        match line {
            'i' => inputs.push(writer.wire("input", names[inputs.len()])),
            'o' => outputs.push(writer.wire("output", names[question.inputs + outputs.len()])),
            'w' => outside = writer.text_line("outside"),
            'g' => goal = writer.text_line("goal"),
            'p' => promise = Some(writer.promise(question)),
            _ => rule = Some(writer.rule(question)),
        }
    }
    let (rule, nothing) = rule.unwrap();
    let promise = promise.unwrap_or(nothing);
    Written { file: writer.file, title, inputs, outputs, outside, goal, promise, rule }
}
