//! On "cannot": a play that defeats the station, and the promises that would do.

use super::{code, row, section, table};
use crate::asking::{self, Asked, Other};
use crate::case::Case;
use crate::engine::Mode;
use crate::formula;
use crate::html::escaped;
use crate::play::{self, outputs_shown, set, Moves, Step};
use crate::sentences::{capital, condition, ordinal, promise, promises_nothing};

/// A state that a move leads to, and that no goal can follow where that is so.
fn led_to(state: usize, distances: &[Option<usize>]) -> String {
    match distances[state] {
        None => format!("state {state}: no goal can follow any more"),
        Some(_) => format!("state {state}"),
    }
}

/// What other outputs of the station would have led to.
fn otherwise(case: &Case, step: &Step, distances: &[Option<usize>]) -> String {
    let told = |moves: &Moves| format!("{}: {}", code(&outputs_shown(case, moves)), led_to(moves.to, distances));
    let all = play::on_input(&case.answer, step.state, step.input);
    let others: Vec<String> = all.iter().filter(|moves| moves.to != step.to).map(told).collect();
    if case.answer.outputs == 0 {
        "-".into()
    } else if others.is_empty() {
        "the same".into()
    } else {
        others.join("<br>")
    }
}

/// A row of the play.
fn played(case: &Case, number: usize, step: &Step, distances: &[Option<usize>]) -> String {
    let yes = |yes: bool| if yes { "yes" } else { "no" };
    let only: Vec<bool> = (0..1usize << case.answer.inputs).map(|input| input == step.input).collect();
    let inputs = match formula::short(&only, &case.input_names()).as_str() {
        "1" => "nothing".into(),
        text => text.to_string(),
    };
    let outputs = set(step.output, &case.output_names());
    let condition = if promises_nothing(case) { "-" } else { yes(step.condition) };
    let cells = [
        &*number.to_string(),
        &*step.state.to_string(),
        &code(&inputs),
        &code(&outputs),
        condition,
        yes(step.kept),
        &led_to(step.to, distances),
        &otherwise(case, step, distances),
    ];
    row(&cells)
}

/// What becomes of the promise on the part of the play that repeats.
fn promise_kept(case: &Case, steps: &[Step], back: usize) -> String {
    let Some(text) = condition(case) else { return String::new() };
    let (again, lacking) = (steps.len() - back, lacking_in(steps));
    let holding = again - lacking_in(&steps[back..]);
    let how = match case.question.mode {
        Mode::Fair if again == 1 => "holds in the step that repeats".into(),
        Mode::Fair => format!("holds in {holding} of the {again} steps that repeat"),
        Mode::Stable if lacking == 0 => "holds in every step".into(),
        Mode::Stable if again == 1 => format!("fails in {lacking} of the steps above and not in the step that repeats"),
        Mode::Stable => format!("fails in {lacking} of the steps above and in none of those that repeat"),
    };
    format!(" So the promise is kept: {} {how}.", code(&text))
}

/// How many steps lack the condition.
fn lacking_in(steps: &[Step]) -> usize {
    steps.iter().filter(|step| !step.condition).count()
}

/// A play that defeats the station, step by step.
pub fn play(case: &Case) -> String {
    let (steps, back) = play::defeat(case);
    let distances = play::distances(&case.answer);
    let rows: String = steps.iter().enumerate().map(|(k, step)| played(case, k + 1, step, &distances)).collect();
    let heads = ["Step", "State", "Inputs", "The station sets", "Condition", "Rule kept", "Then", "With other outputs"];
    let outside = escaped(&case.station.outside);
    let again = if back + 1 == steps.len() {
        format!("step {} comes again without end", steps.len())
    } else {
        format!("steps {} to {} come again in this order without end", back + 1, steps.len())
    };
    let body = format!(
        "<p>{} follows its table. In each step the station does what brings it nearest to a goal, as long as one can follow; nothing helps \
         it. Whether the rule is kept is what the engine says of the steps so far.</p>\n{}<p>Then the play is in state {} as before step {}, and \
         {again}.{} Other ways of running the decks end no better: that is the verdict, and section 7 lets you try.</p>\n",
        capital(&outside),
        table(&heads, &rows),
        steps[back].state,
        back + 1,
        promise_kept(case, &steps, back)
    );
    section("defeat", "9. A play that defeats the station", &body)
}

/// What was asked, and the engine's answer.
fn asked(case: &Case, asked: &Asked) -> String {
    let text = formula::short(&asked.meets, &case.input_names());
    let text = if asked.meets == case.meets { condition(case).unwrap_or(text) } else { text };
    let row_of = if asked.mode == Mode::Stable && asked.round > 1 { " in a row" } else { "" };
    let answer = match asked.can {
        true => format!("yes, by the {} step{row_of} with it at the latest", ordinal(asked.round)),
        false => "no".into(),
    };
    row(&[&promise(asked.mode, &code(&text)), &answer])
}

/// What was found, below the rows.
fn found(case: &Case, other: &Other) -> String {
    let alone = case.meets.iter().filter(|&&meets| meets).count() == 1;
    let by_hand = if case.answer.inputs > 1 {
        " A condition of another form, such as one input or another, may ask for less and do: it can be asked by hand, in a station file."
    } else {
        ""
    };
    let text = match (&other.mode, other.narrower.is_empty()) {
        (_, false) => format!("Of the promises asked about, those with a yes are the weakest that do.{by_hand}"),
        (_, true) if alone => {
            "Only one setting of the inputs meets the condition, so none that asks for more is left.".into()
        }
        (Some(mode), true) if mode.can => {
            "Promised in every step from some step on, every condition that asks for more would do too; \
             promised again and again, none of them would."
                .into()
        }
        (_, true) => {
            "No condition that asks for more would do, in either mode, down to one setting of all inputs.".into()
        }
    };
    format!("{text} That two conditions each come again and again, perhaps never in the same step, cannot be asked.")
}

/// What was asked, in words.
fn what_was_asked(case: &Case, other: &Other) -> String {
    let outside = escaped(&case.station.outside);
    let narrowed = "conditions that ask for more, namely for certain inputs to be set or not set besides, again and again or from some step on \
        always";
    let asked = match (other.mode.is_some(), other.questions) {
        (true, 1) => "the other mode".into(),
        (true, _) => format!("the other mode, and {narrowed}"),
        (false, _) => narrowed.to_string(),
    };
    match other.questions {
        0 => format!("{} has no inputs, so there is no other promise to ask about.", capital(&outside)),
        1 => format!("The engine was asked the same rule with one other promise of {outside}: {asked}."),
        n => format!("The engine was asked the same rule with {n} other promises of {outside}: {asked}."),
    }
}

/// Whether the other mode or a stronger promise would do.
pub fn others(case: &Case) -> String {
    let other = asking::other(case);
    let rows: String = other.mode.iter().chain(&other.narrower).map(|one| asked(case, one)).collect();
    let table = if rows.is_empty() { rows } else { table(&["If it promised", "could the station?"], &rows) };
    let found = if other.questions == 0 { String::new() } else { format!("<p>{}</p>\n", found(case, &other)) };
    let body = format!("<p>{}</p>\n{table}{found}", what_was_asked(case, &other));
    section("others", "10. Whether another promise would do", &body)
}
