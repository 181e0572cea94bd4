//! What is left open; what is assumed; how to repeat it.

use super::tables::{last, states_are};
use super::{called, code, library_hash, section, LIBRARY, SOURCES, TOOLCHAIN};
use crate::case::Case;
use crate::engine::Mode;
use crate::hash::sha256;
use crate::html::escaped;
use crate::play::{self, OddRule};
use crate::sentences::{capital, condition, ordinal};

/// The warning where the rule asks for too little or for too much.
pub fn warning(case: &Case) -> Option<String> {
    let meant = "If the station is held to it in every step up to some event, say so with \u{201c}until\u{201d}.";
    match play::odd_rule(case)? {
        OddRule::KeptByAll => Some(format!("The rule is kept at the first step whatever happens, so it asks for nothing. {meant}")),
        OddRule::KeptAtOnce => Some(format!(
            "With the table the rule is kept at the very first step, whatever the inputs are, and says nothing of the steps after \
             it. {meant}"
        )),
        OddRule::KeptByNone => Some("No list of steps at all keeps this rule, whatever both sides do.".into()),
    }
}

/// The warning as a paragraph.
fn warned(case: &Case) -> String {
    let shown = |text: String| format!("<p class=\"warning\"><b>Mind this.</b> {}</p>\n", escaped(&text));
    warning(case).map_or(String::new(), shown)
}

/// What becomes of a broken promise.
fn broken(case: &Case) -> String {
    let outside = escaped(&case.station.outside);
    let Some(text) = condition(case) else {
        return format!(
            "<li><b>A broken promise.</b> {} promises nothing, so there is nothing to break.</li>\n",
            capital(&outside)
        );
    };
    if play::odd_rule(case).is_some() {
        return "<li><b>A broken promise.</b> With the table nothing hangs on the promise: see above.</li>\n".into();
    }
    let (text, have) = (code(&text), have_come(case));
    let never = if case.answer.round == 1 { "is never one" } else { "are never so many" };
    format!(
        "<li><b>A broken promise.</b> Once there {have} with {text} the rule is kept, whatever {outside} does after that. If \
         there {never}, this answer does not say whether it is kept. The table loses nothing meanwhile: it leads only to \
         goals and to states from which the station can keep the rule if the promise is kept.</li>\n"
    )
}

/// "has been 1 step", "have been 2 steps" or "have been 2 steps in a row", by the round number.
fn have_come(case: &Case) -> String {
    match (case.answer.round, case.question.mode) {
        (1, _) => "has been 1 step".into(),
        (round, Mode::Fair) => format!("have been {round} steps"),
        (round, Mode::Stable) => format!("have been {round} steps in a row"),
    }
}

/// What a wrong output does, and what the table does after it.
fn stray_outputs(case: &Case) -> String {
    let answer = &case.answer;
    if answer.outputs == 0 {
        return "The station has no outputs, so it cannot stray.".into();
    }
    if play::odd_rule(case) == Some(OddRule::KeptByAll) {
        return "No output can lose this rule: the first step keeps it.".into();
    }
    let lost = play::lost_by_one(answer);
    let lost = if lost.is_empty() {
        "Here no wrong output in one step loses the rule.".into()
    } else {
        let are = states_are(&lost, "is", "are");
        format!("{are} lost: one wrong output can lead there, and then nothing is promised.")
    };
    let row = if case.question.mode == Mode::Stable && condition(case).is_some() { " in a row" } else { "" };
    let with = condition(case).map_or(String::new(), |text| format!(" with {}", code(&text)));
    format!(
        "{lost} If it strays to a state from which the station can still keep the rule, and goes on by the table (the \
         listing of section {} has the rows that section 5 leaves out), the rule is kept by the {} step{row}{with} after that at the \
         latest (<code>SystemWins</code> in <code>crates/plays/specs/Strategy.antt</code>).",
        last(case),
        ordinal(answer.n)
    )
}

/// What becomes of a box that strays.
fn strayed(case: &Case) -> String {
    format!(
        "<li><b>A box that strays.</b> The promise is for a box that sets exactly what the table has, in each step. {}</li>\n",
        stray_outputs(case)
    )
}

/// What is left open on "cannot".
fn open_to_the_outside(case: &Case) -> String {
    let outside = escaped(&case.station.outside);
    let point = if play::odd_rule(case) == Some(OddRule::KeptByNone) {
        format!("It does: no list of steps keeps this rule, whether {outside} follows its table or not.")
    } else {
        format!(
            "The answer is that {outside} can keep the rule from being kept, whatever the station does; not that it will. Where it does not \
             follow the table, nothing is said. With other inputs the station may succeed; section 10 asks about other promises."
        )
    };
    format!("<ul>\n<li><b>Whether it comes to that.</b> {point}</li>\n</ul>\n")
}

/// What is left open.
pub fn open(case: &Case) -> String {
    let points = if case.answer.can {
        format!(
            "<ul>\n{}<li><b>Steps after the goal.</b> Once the rule is kept it stays kept, and it says nothing of any later step: where \
             it speaks of every step, it speaks of those up to then. What the table has in a goal's row is no part of the promise.</li>\n{}</ul>\n",
            broken(case),
            strayed(case)
        )
    } else {
        open_to_the_outside(case)
    };
    section("open", "8. What is left open", &(warned(case) + &points))
}

/// What is assumed.
pub fn assumed(case: &Case) -> String {
    let body = "<ul>\n<li><b>The rule says what is meant.</b> Nobody proves that; section 3 is there to be read.</li>\n\
         <li><b>The wires mean what section 2 says</b>, the box sees the inputs of each step before it sets its outputs, and it \
         follows the table.</li>\n\
         <li><b>The proved library and its toolchain.</b> What is proved, and what has to be believed for it (the definitions, the \
         prover, the compiler), stands in <code>docs/PROMISES.md</code> of the engine's sources.</li>\n\
         <li><b>This page is a presentation and not proved.</b> Verdict, numbers, tables, moves, goals, and whether a list of steps \
         keeps the rule, come from the library. The page's own are: the translation from names, which stands in the last section so \
         that it need not be trusted unseen; the formulas in words and the short formulas; the picture and the simulator; and what is \
         read off the moves: which states a table comes to, which are lost by one wrong step, from which no goal can follow, \
         which come only behind a goal, what the station tries in a play that defeats it, warnings, and which of the promises asked \
         about is the weakest.</li>\n</ul>\n";
    section("assumed", &format!("{}. What is assumed", last(case) - 1), body)
}

/// The engine's own listing: the verdict's line, and a row for each state.
pub fn listing(case: &Case) -> String {
    let answer = &case.answer;
    let mut text = format!("{} {} {}\n", if answer.can { "can" } else { "cannot" }, answer.n, answer.round);
    for state in 0..answer.n {
        let mark = if answer.goal(state) { '*' } else { '-' };
        text += &format!("{state} {mark}");
        if answer.wins(state) {
            text += " S";
            for input in 0..1usize << answer.inputs {
                text += &format!(" {}", answer.output(state, input));
            }
        } else {
            text += &format!(" O {}", answer.input(state));
        }
        text.push('\n');
    }
    text
}

/// The command that makes the page.
fn command(name: &str) -> String {
    let safe = |c: char| c.is_ascii_alphanumeric() || "./_-+,:@%".contains(c);
    let word = if name.chars().all(safe) { name.to_string() } else { format!("'{}'", name.replace('\'', "'\\''")) };
    match name {
        "-" => "./airdesk -o PAGE - < FILE".into(),
        name if name.starts_with('-') => format!("./airdesk -- {word}"),
        _ => format!("./airdesk {word}"),
    }
}

/// How to repeat it.
pub fn repeated(case: &Case, name: &str, file: &[u8]) -> String {
    let body = format!(
        "<p>In a copy of the engine's sources: {}. The same file and the same library give the same facts, for every byte of the \
         tables is determined by the question.</p>\n\
         <dl>\n<dt>Station file</dt><dd>{}, SHA-256 <code>{}</code></dd>\n\
         <dt>Library</dt><dd><code>libcapi.a</code>, {} bytes, SHA-256 <code>{}</code>, interface version {}</dd>\n\
         <dt>Toolchain</dt><dd>{}</dd>\n<dt>Built from</dt><dd>{}</dd>\n</dl>\n\
         <h3>The station file</h3>\n<pre>{}</pre>\n\
         <h3>The engine's four lines</h3>\n<p>For <code>./airtable</code>, and without trust in the translation: letters for names, in \
         their order.</p>\n<pre>{}</pre>\n\
         <h3>The engine's answer</h3>\n<p>As <code>./airtable</code> prints it: README.md of the sources says how to read it.</p>\n\
         <pre class=\"listing\">{}</pre>\n",
        code(&command(name)),
        code(called(name)),
        sha256(file),
        LIBRARY.len(),
        library_hash(),
        env!("INTERFACE"),
        escaped(TOOLCHAIN),
        escaped(SOURCES),
        escaped(&String::from_utf8_lossy(file)),
        escaped(&case.question.lines()),
        escaped(&listing(case))
    );
    section("repeat", &format!("{}. How to repeat it", last(case)), &body)
}
