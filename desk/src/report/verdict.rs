//! The verdict, and what exactly is promised.

use super::{answer, code, section};
use crate::case::Case;
use crate::engine::Mode;
use crate::html::escaped;
use crate::play;
use crate::sentences::{condition, counted, promises_nothing};
use crate::station::GOAL;

/// What keeping the promise means on a play without end.
fn kept_promise(case: &Case) -> String {
    let end = match (condition(case), case.question.mode) {
        (None, _) => String::new(),
        (Some(text), Mode::Fair) => format!(" in which a step with {} comes again and again", code(&text)),
        (Some(text), Mode::Stable) => format!(" in which from some step on every step has {}", code(&text)),
    };
    format!("On every order of steps without end{end},")
}

/// That no way of answering needs fewer.
fn least(case: &Case) -> String {
    let fewer = case.answer.round - 1;
    let row = if case.question.mode == Mode::Stable && fewer > 1 { " in a row" } else { "" };
    let plural = if fewer == 1 { "" } else { "s" };
    let text = match (fewer, condition(case)) {
        (0, None) => "No step comes before the first.".into(),
        (0, Some(text)) => {
            let before = if play::odd_rule(case).is_some() {
                "Here the table keeps the rule at the very first step (section 8)."
            } else {
                "Whether the rule can be kept before such a step comes is not said."
            };
            format!("The number counts steps with {}, and 1 is the least that there is. {before}", code(&text))
        }
        (_, text) => {
            let with = text.map_or(String::new(), |text| format!(" with {}", code(&text)));
            format!(
                "No way of running the decks does better, whatever it remembers of the steps so far: against each there is an order \
                 with {fewer} step{plural}{row}{with} on which the rule is not kept yet."
            )
        }
    };
    format!("<p><b>No fewer.</b> {text}</p>\n")
}

/// On "can": what the table promises.
fn can(case: &Case) -> String {
    let outside = escaped(&case.station.outside);
    let goal = match case.station.goal.as_str() {
        GOAL => String::new(),
        goal => format!(" ({})", escaped(goal)),
    };
    let row = if case.question.mode == Mode::Stable && !promises_nothing(case) {
        ""
    } else {
        ", counted from the first step"
    };
    format!(
        "<p><b>What is promised.</b> Let the station follow the table of section 5. {} there is a step at which the rule is \
         kept{goal}, and it comes by {} at the latest{row}. This holds whatever {outside} does besides, be it fixed beforehand or \
         made up on the way. Up to that step the table has a command for every input that can come.</p>\n{}",
        kept_promise(case),
        counted(case, code),
        least(case)
    )
}

/// On "cannot": what the outside's table does.
fn cannot(case: &Case) -> String {
    let (outside, n) = (escaped(&case.station.outside), case.answer.n);
    let keeps = match (condition(case), case.question.mode) {
        (None, _) => String::new(),
        (Some(text), Mode::Fair) => format!(
            " And on every such play without end the promise is kept: {} comes at least once in any {n} steps in a row.",
            code(&text)
        ),
        (Some(text), Mode::Stable) => format!(
            " And on every such play without end the promise is kept: fewer than {n} steps in all lack {}, so that from some step on \
             none does.",
            code(&text)
        ),
    };
    format!(
        "<p><b>What is shown.</b> Let {outside} follow the table of section 5. Then no way of running the decks, with any memory of \
         what went before, ever keeps the rule, on a play of any length or without end.{keeps}</p>\n"
    )
}

/// Where it is proved. The names are those of the engine's sources.
fn proved(case: &Case) -> String {
    let (finite, endless) = if case.answer.can { ("Can", "CanEndless") } else { ("Cannot", "CannotEndless") };
    let round = if case.answer.round > 1 {
        ", and that no way of running the decks does with fewer is <code>RoundNumber</code> in <code>crates/plays/specs/Round.antt</code>"
    } else {
        ""
    };
    format!(
        "<p><b>How it is known.</b> Not by trying many orders of inputs. That every answer of the engine holds on lists of steps with an \
         end is proved: it is <code>{finite}</code> in <code>crates/game/specs/Rule.antt</code>{round}. From this the theorem \
         <code>rule_endless</code> in <code>crates/game/proofs/EndlessAnswers.antt</code> has the answer for orders without end: \
         <code>{endless}</code> in <code>crates/plays/specs/Endless.antt</code>.</p>\n"
    )
}

/// The numbers of the answer.
fn numbers(case: &Case) -> String {
    let answer = &case.answer;
    let come = play::reached(answer).iter().filter(|&&reached| reached).count();
    let round = if answer.can { format!("; r = {}", answer.round) } else { String::new() };
    format!(
        "<p>The rule's automaton, which remembers what matters of the steps so far, has n = {} states{round}. With the table a play \
         can come to {come} of them.</p>\n",
        answer.n
    )
}

/// The verdict with its number and what exactly is promised.
pub fn promised(case: &Case) -> String {
    let promise = if case.answer.can { can(case) } else { cannot(case) };
    let body = format!("<p class=\"verdict\">{}</p>\n{promise}{}{}", answer(case), proved(case), numbers(case));
    section("verdict", "4. The verdict", &body)
}
