//! The table by states, and the picture.

use super::{code, row, rows_beside, section, table};
use crate::case::Case;
use crate::engine::Answer;
use crate::html::escaped;
use crate::picture::{self, Picture};
use crate::play::{self, inputs_shown, outputs_shown, Moves};
use crate::sentences::{capital, promises_nothing};

/// A state's name in the table.
fn state(case: &Case, state: usize) -> String {
    let start = if state == 0 { ", the start" } else { "" };
    let goal = if case.answer.goal(state) { ", a goal" } else { "" };
    format!("{state}{start}{goal}")
}

/// Where a move leads.
fn then(case: &Case, to: usize) -> String {
    if case.answer.goal(to) {
        format!("state {to}, a goal: the rule is kept")
    } else {
        format!("state {to}")
    }
}

/// The rows of a state: a row for each command, or for each reply.
fn rows(case: &Case, from: usize) -> String {
    let name = state(case, from);
    let all = play::by_table(&case.answer, from);
    let inputs = |moves: &Moves| code(&inputs_shown(case, moves));
    let rest = |moves: &Moves| vec![code(&outputs_shown(case, moves)), then(case, moves.to)];
    if case.answer.can {
        let cells: Vec<Vec<String>> = all.iter().map(|moves| [vec![inputs(moves)], rest(moves)].concat()).collect();
        rows_beside(&[&name], &cells)
    } else {
        rows_beside(&[&name, &inputs(&all[0])], &all.iter().map(rest).collect::<Vec<Vec<String>>>())
    }
}

/// Numbers in a row of words: 1, 2 and 3.
fn listed(numbers: &[usize]) -> String {
    let words: Vec<String> = numbers.iter().map(|number| number.to_string()).collect();
    match words.split_last() {
        Some((last, rest)) if !rest.is_empty() => format!("{} and {last}", rest.join(", ")),
        _ => words.concat(),
    }
}

/// "state 3" or "states 3 and 4".
fn listed_states(numbers: &[usize]) -> String {
    let noun = if numbers.len() == 1 { "state" } else { "states" };
    format!("{noun} {}", listed(numbers))
}

/// "State 3" or "States 3 and 4", with the verb that follows in both numbers.
pub fn states_are(numbers: &[usize], one: &str, more: &str) -> String {
    format!("{} {}", capital(&listed_states(numbers)), if numbers.len() == 1 { one } else { more })
}

/// What is to be said of the goals.
fn goals(answer: &Answer) -> String {
    let goals: Vec<usize> = (1..answer.n).filter(|&s| answer.goal(s)).collect();
    if goals.is_empty() {
        return String::new();
    }
    let are = states_are(&goals, "is a goal", "are goals");
    format!("<p>{are}: the rule is kept there, and what is set later makes no difference to it.</p>\n")
}

/// What is to be said of the states from which the side that lost the question would win.
fn others(case: &Case, states: &[usize]) -> String {
    let outside = escaped(&case.station.outside);
    match (states.is_empty(), case.answer.can) {
        (true, _) => String::new(),
        (false, true) if case.answer.inputs == 0 => {
            format!("<p>{} lost: from there no goal can follow. The table never leads there.</p>\n", states_are(states, "is", "are"))
        }
        (false, true) => format!(
            "<p>{} lost: from there {outside} can keep the rule from ever being kept. The table never leads there.</p>\n",
            states_are(states, "is", "are")
        ),
        (false, false) => format!(
            "<p>From {} the station could keep the rule{}. The table never leads there.</p>\n",
            listed_states(states),
            if promises_nothing(case) { "" } else { ", if the promise is kept" }
        ),
    }
}

/// What is to be said of the states that have no rows of their own.
fn without_rows(case: &Case, reached: &[bool]) -> String {
    let answer = &case.answer;
    let before = play::before_goals(answer);
    let of = |test: &dyn Fn(usize) -> bool| (0..answer.n).filter(|&s| test(s)).collect::<Vec<usize>>();
    let losers = of(&|s| before[s] && !reached[s] && answer.wins(s) != answer.can);
    let mut text = goals(answer) + &others(case, &losers);
    let spare = of(&|s| before[s] && !reached[s] && answer.wins(s) == answer.can);
    if !spare.is_empty() {
        let rows = if spare.len() == 1 { "its row" } else { "their rows" };
        text += &format!(
            "<p>A play with this table never comes to {}; the listing in section {} has {rows} all the same.</p>\n",
            listed_states(&spare),
            last(case)
        );
    }
    let behind = of(&|s| !before[s] && !answer.goal(s));
    if !behind.is_empty() {
        let come = states_are(&behind, "comes", "come");
        text += &format!("<p>{come} only behind a goal, when the rule is kept already.</p>\n");
    }
    text
}

/// The number of the last section.
pub fn last(case: &Case) -> usize {
    if case.answer.can {
        10
    } else {
        12
    }
}

/// The table by states, with names.
pub fn by_states(case: &Case) -> String {
    let reached = play::reached(&case.answer);
    let rows: String = play::lively(&case.answer, &reached).into_iter().map(|s| rows(case, s)).collect();
    let outside = escaped(&case.station.outside);
    let (lead, heads) = if case.answer.can {
        let lead = format!(
            "<p>The station's table. The box is in a state; {outside} sets the inputs; the row that fits says what the station \
             sets (wires that are not named are off) and in which state the next step begins. A play begins in state 0.</p>\n"
        );
        (lead, ["In state", "If the inputs are", "the station sets", "and then"])
    } else {
        let lead = format!(
            "<p>The table of {outside}, by which it defeats every station. In each state it sets the inputs of the row; whatever the \
             station sets then, no goal follows. A play begins in state 0.</p>\n"
        );
        (lead, ["In state", "the inputs are set to", "If the outputs are", "then comes"])
    };
    let body = format!("{lead}{}{}", table(&heads, &rows), without_rows(case, &reached));
    section("table", "5. The table", &body)
}

/// What the drawing's marks mean.
fn key(case: &Case, picture: &Picture, grey: bool) -> String {
    let outside = escaped(&case.station.outside);
    let set = if case.answer.can {
        "what the inputs are / what the station then sets".into()
    } else {
        format!("what {outside} sets / what the outputs are")
    };
    let below = if picture.legend.is_empty() {
        ""
    } else {
        " Where an arrow has no text, or <code>..</code> in it, its text stands below the picture."
    };
    let grey = match (grey, case.answer.can) {
        (false, _) => String::new(),
        (true, true) => " Grey: what the table never does, and the states that are lost by it.".into(),
        (true, false) => {
            format!(" Grey: what {outside} never does by its table, and the states that it would lose by it.")
        }
    };
    format!("<p class=\"key\">An arrow: {set}.{below} A double border: a goal.{grey} The picture is a drawing of the table, no more.</p>\n")
}

/// The lines of arrows whose labels are numbers in the picture.
fn legend(lines: &[(String, Vec<String>)]) -> String {
    let lines: String = lines
        .iter()
        .map(|(name, lines)| {
            let lines: Vec<String> = lines.iter().map(|line| code(line)).collect();
            row(&[name, &lines.join("<br>")])
        })
        .collect();
    if lines.is_empty() {
        lines
    } else {
        table(&["Arrow", "Inputs / outputs"], &lines)
    }
}

/// The picture.
pub fn drawing(case: &Case, dot: Option<&str>) -> String {
    let graph = play::graph(case);
    let body = match picture::svg(&graph, dot) {
        Some(picture) => {
            let key = key(case, &picture, graph.nodes.iter().any(|node| node.lost));
            format!("<div class=\"wide\">{}</div>\n{key}{}", picture.svg, legend(&picture.legend))
        }
        None => format!(
            "<p>The table can come to {} states, too many for a picture that can be read. The table of section 5 says the same.</p>\n",
            graph.nodes.len()
        ),
    };
    section("drawing", "6. The picture", &body)
}
