//! The sentences that the command and the page share.

use crate::case::Case;
use crate::engine::Mode;
use crate::formula;
use crate::play;
use crate::words::{marks, Words};

/// The longest condition that stands within a sentence.
const IN_SENTENCE: usize = 60;

/// How a sentence shows the file's words and formulas.
pub struct Style {
    pub text: fn(&str) -> String,
    pub code: fn(&str) -> String,
}

/// A number as a place in an order: 1st, 2nd, 3rd, 4th, 11th.
pub fn ordinal(number: usize) -> String {
    let ending = match (number % 10, number % 100) {
        (_, 11..=13) => "th",
        (1, _) => "st",
        (2, _) => "nd",
        (3, _) => "rd",
        _ => "th",
    };
    format!("{number}{ending}")
}

/// A clause with a capital letter in front.
pub fn capital(text: &str) -> String {
    let mut rest = text.chars();
    rest.next().map_or(String::new(), |first| first.to_uppercase().chain(rest).collect())
}

/// Whether the condition is met by every input, so that nothing is promised.
pub fn promises_nothing(case: &Case) -> bool {
    !case.meets.contains(&false)
}

/// The condition as the file has it, or written anew from the inputs that meet it where it is long; nothing if every input meets it.
pub fn condition(case: &Case) -> Option<String> {
    if promises_nothing(case) {
        return None;
    }
    let text = marks(&Words::of(case), &case.station.promise);
    let short = formula::short(&case.meets, &case.input_names());
    Some(if text.len() <= IN_SENTENCE || text.len() <= short.len() { text } else { short })
}

/// "the 2nd step with `cue`", as the mode counts.
pub fn counted(case: &Case, code: fn(&str) -> String) -> String {
    let (round, stable) = (case.answer.round, case.question.mode == Mode::Stable);
    let Some(text) = condition(case) else { return format!("the {} step", ordinal(round)) };
    let row = if stable && round > 1 { " in a row" } else { "" };
    format!("the {} step{row} with {}", ordinal(round), code(&text))
}

/// "`cue` again and again", or "`cue` in every step from some step on".
pub fn promise(mode: Mode, condition: &str) -> String {
    match mode {
        Mode::Fair => format!("{condition} again and again"),
        Mode::Stable => format!("{condition} in every step from some step on"),
    }
}

/// On "can", the promise that the answer rests on; nothing where it rests on none.
pub fn rests_on(case: &Case, style: &Style) -> Option<String> {
    let text = condition(case).filter(|_| case.answer.can && play::odd_rule(case).is_none())?;
    let promise = promise(case.question.mode, &(style.code)(&text));
    Some(format!("This rests on a promise of {}: {promise}.", (style.text)(&case.station.outside)))
}

/// The answer in a sentence.
pub fn verdict(case: &Case, style: &Style) -> String {
    let (outside, goal) = ((style.text)(&case.station.outside), (style.text)(&case.station.goal));
    if case.answer.can {
        return format!("Yes. Whatever {outside} does, {goal} by {} at the latest.", counted(case, style.code));
    }
    match condition(case) {
        None if case.answer.inputs == 0 => "No. Whatever the station does, the rule is never kept.".into(),
        None => format!("No. Whatever the station does, {outside} can see to it that the rule is never kept."),
        Some(text) => {
            let promise = promise(case.question.mode, &(style.code)(&text));
            format!("No. Whatever the station does, {outside} can keep its promise ({promise}) and the rule is still never kept.")
        }
    }
}
