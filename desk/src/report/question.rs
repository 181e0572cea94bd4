//! The question; the wires; rule and promise.

use super::{code, row, section, table};
use crate::case::Case;
use crate::engine::Mode;
use crate::html::escaped;
use crate::sentences::{capital, promises_nothing};
use crate::station::{self, Token, Wire};
use crate::tree;
use crate::words::{marks, Words};

/// The question.
pub fn asked(case: &Case) -> String {
    let (outside, goal) = (escaped(&case.station.outside), escaped(&case.station.goal));
    let clause = if case.answer.inputs == 0 {
        format!("{} has no inputs to set: everything hangs on the station.", capital(&outside))
    } else {
        let free = if promises_nothing(case) {
            format!("{} has promised nothing and is free", capital(&outside))
        } else {
            format!("All that is asked of {outside} is that the promise of section 3 is kept. For the rest {outside} is free")
        };
        format!(
            "{free}: any order of inputs, for as long as it likes, fixed beforehand or made up on the way in sight of all that the \
             station does. Logs of the past cannot answer this, for they hold only some orders. The engine answers for every order, \
             also for those without end."
        )
    };
    let body = format!(
        "<p><strong>Can the station see to it that {goal}, whatever {outside} does?</strong></p>\n<p>{clause}</p>\n"
    );
    section("question", "1. The question", &body)
}

/// The rows of some wires, with the engine's letters for them.
fn rows(wires: &[Wire], side: &str, letters: &str) -> String {
    let row = |(wire, letter): (&Wire, char)| {
        let name = format!("<b>{}</b>", escaped(&wire.name));
        row(&[&name, side, &escaped(&wire.note), &code(&letter.to_string())])
    };
    wires.iter().zip(letters.chars()).map(row).collect()
}

/// The wires, and what a step is.
pub fn wires(case: &Case) -> String {
    let outside = escaped(&case.station.outside);
    let rows = rows(&case.station.inputs, &outside, "abcd") + &rows(&case.station.outputs, "the station", "pqrs");
    let heads = ["Wire", "Set by", "When it is set", "For the engine"];
    let inputs = if case.answer.inputs == 0 {
        "In each step the station sets its wires, the outputs; there are no inputs.".into()
    } else {
        format!(
            "In each step first the inputs are set, by {outside}; the station sees them and then sets the outputs, in the same step."
        )
    };
    let body = format!(
        "{}<p>Time goes in steps. {inputs} A wire is set or not, in each step anew. How long a step lasts, and whether all last \
         equally long, makes no difference.</p>\n",
        table(&heads, &rows)
    );
    section("wires", "2. The wires and what a step is", &body)
}

/// A formula as the file has it.
fn shown(case: &Case, tokens: &[Token]) -> String {
    format!("<pre>{}</pre>\n", escaped(&marks(&Words::of(case), tokens)))
}

/// A formula in words.
fn in_words(case: &Case, text: &str) -> String {
    let tree = tree::parse(text).expect("the engine has accepted the text");
    format!("<div class=\"reading\">\n{}</div>\n", Words::of(case).reading(&tree).html())
}

/// The promise, with its reading.
fn promise(case: &Case) -> String {
    let outside = capital(&escaped(&case.station.outside));
    if promises_nothing(case) {
        return format!("<h3>The promise</h3>\n<p>{outside} promises nothing.</p>\n");
    }
    let lead = match case.question.mode {
        Mode::Fair => "again and again, without end, there comes a step in which this holds",
        Mode::Stable => "from some step on, which nobody has to name, this holds in every step",
    };
    format!(
        "<h3>The promise</h3>\n{}<p>{outside} promises: {lead} (mode <em>{}</em>).</p>\n{}",
        shown(case, &case.station.promise),
        case.question.mode.word(),
        in_words(case, &case.question.condition)
    )
}

/// The rule and the promise, each with a reading in words.
pub fn texts(case: &Case) -> String {
    let goal = match case.station.goal.as_str() {
        station::GOAL => String::new(),
        goal => format!(": in the station's words, {}", escaped(goal)),
    };
    let body = format!(
        "<h3>The rule</h3>\n{}<p>In words, seen from the first of the steps so far:</p>\n{}<p>The rule is about the steps so far. It is kept \
         as soon as they satisfy it, whatever comes after{goal}.</p>\n{}",
        shown(case, &case.station.rule),
        in_words(case, &case.question.rule),
        promise(case)
    );
    section("texts", "3. The rule and the promise", &body)
}
