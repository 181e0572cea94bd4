//! The part of the page that plays: the reader against the winner's table, by a script that only looks up what the library handed out.

use crate::case::Case;
use crate::engine::Mode;
use crate::html::escaped;
use crate::odd::is_odd;
use crate::sentences::promises_nothing;
use crate::station::{Wire, GOAL};

/// The script, for the end of the page's body.
pub const SCRIPT: &str = include_str!("page.js");

/// The simulator's part of the page's style.
pub const STYLE: &str = include_str!("simulator.css");

/// The section with the simulator. Its controls are hidden until the script runs.
pub fn section(case: &Case) -> String {
    let parts = [introduction(case), board(case), BUTTONS.into(), facts(case), TABLE.into(), keys(case)];
    format!(
        "<section id=\"simulator\">\n<h2>7. The simulator</h2>\n<p class=\"on-paper\">On a screen a play can be tried here, step by step.</p>\n\
         <noscript><p>The simulator needs JavaScript. Without it, the table above says the same: what is set in each \
         state, and which state comes next.</p></noscript>\n\
         <div id=\"play-controls\" hidden>\n{}</div>\n<script type=\"application/json\" id=\"data\">\n{}</script>\n</section>\n",
        parts.concat(),
        data(case),
    )
}

/// Who plays whom.
fn introduction(case: &Case) -> String {
    let outside = escaped(&case.station.outside);
    if case.answer.can {
        let promise = if promises_nothing(case) { "" } else { ", if only you keep the promise" };
        format!(
            "<p>You play {outside}: you set the inputs of a step and press Step. The station, which has seen them, \
             answers with the commands of its table. The rule will be kept, whatever you do{promise}.</p>\n"
        )
    } else {
        let promise = if promises_nothing(case) { "" } else { ", and the promise is kept all the while" };
        format!(
            "<p>You play the station. The inputs of each step are set by {outside}, from its table, and you see them; \
             you set the commands and press Step. The rule will not be kept, whatever you do{promise}.</p>\n"
        )
    }
}

/// Both sides of a step: the reader's side as buttons, the table's side as lamps.
fn board(case: &Case) -> String {
    let (inputs, outputs) = (&case.station.inputs, &case.station.outputs);
    let coming = "step <span class=\"coming\">1</span>";
    let sides = if case.answer.can {
        [
            side("toggles", &format!("Inputs of {coming}, set by you"), &toggles(inputs, "inputs")),
            side(
                "lamps",
                "Commands of the station, <span id=\"play-lamps-step\">no step yet</span>",
                &lamps(outputs, "commands"),
            ),
        ]
    } else {
        let who = escaped(&case.station.outside);
        [
            side("lamps", &format!("Inputs of {coming}, set by {who}"), &lamps(inputs, "inputs")),
            side("toggles", &format!("Commands of {coming}, set by you"), &toggles(outputs, "commands")),
        ]
    };
    format!("<div class=\"board\">\n{}</div>\n", sides.concat())
}

/// One side of a step, with its heading.
fn side(id: &str, heading: &str, content: &str) -> String {
    format!(
        "<div role=\"group\" aria-labelledby=\"play-{id}-of\">\n<h3 id=\"play-{id}-of\">{heading}</h3>\n\
         <p class=\"wires\" id=\"play-{id}\">\n{content}</p>\n</div>\n"
    )
}

/// A button for each wire that the reader sets.
fn toggles(wires: &[Wire], what: &str) -> String {
    let button = |(place, wire): (usize, &Wire)| {
        format!(
            "<button type=\"button\" class=\"toggle\" id=\"toggle-{place}\" aria-pressed=\"false\"{}>{} \
             <span class=\"value\" aria-hidden=\"true\">off</span></button>\n",
            tooltip(wire),
            escaped(&wire.name),
        )
    };
    or_none(wires.iter().enumerate().map(button).collect(), what, "press Step")
}

/// A lamp for each wire that the table sets.
fn lamps(wires: &[Wire], what: &str) -> String {
    let lamp = |(place, wire): (usize, &Wire)| {
        format!(
            "<span class=\"lamp\" id=\"lamp-{place}\"{}>{} <span class=\"value\">off</span></span>\n",
            tooltip(wire),
            escaped(&wire.name),
        )
    };
    or_none(wires.iter().enumerate().map(lamp).collect(), what, "nothing to show")
}

/// A wire's note as an attribute.
fn tooltip(wire: &Wire) -> String {
    match &*wire.note {
        "" => String::new(),
        note => format!(" title=\"{}\"", escaped(note)),
    }
}

/// The wires of one side, or that there are none.
fn or_none(wires: String, what: &str, then: &str) -> String {
    match &*wires {
        "" => format!("There are no {what}: {then}.\n"),
        _ => wires,
    }
}

/// What one can do besides setting wires.
const BUTTONS: &str = "<p class=\"actions\">
<button type=\"button\" id=\"do-step\">Step</button>
<button type=\"button\" id=\"do-undo\">Undo</button>
<button type=\"button\" id=\"do-restart\">Restart</button>
<button type=\"button\" id=\"do-copy\">Copy as text</button>
</p>
<div id=\"play-outcome\" role=\"status\" aria-live=\"polite\" aria-atomic=\"true\" tabindex=\"-1\">
<p id=\"play-news\"></p>
<p id=\"play-kept\"></p>
</div>
";

/// The steps so far, as a table and as text.
const TABLE: &str = "<div class=\"steps\" id=\"play-box\" tabindex=\"0\" role=\"region\" aria-label=\"Steps so far\">
<table>
<caption>Steps so far</caption>
<thead><tr><th scope=\"col\">Step</th><th scope=\"col\">Inputs on</th><th scope=\"col\">Commands on</th>\
<th scope=\"col\">Condition held</th><th scope=\"col\">State after</th><th scope=\"col\">Rule kept</th></tr></thead>
<tbody id=\"play-rows\"></tbody>
</table>
</div>
<p><label for=\"play-text\">The same as text</label>
<textarea id=\"play-text\" readonly rows=\"6\" cols=\"60\"></textarea></p>
";

/// Where the play stands.
fn facts(case: &Case) -> String {
    let (label, bound) = count(case);
    let fact = |label: &str, id: &str, first: &str, bound: &str| {
        format!("<div><dt>{label}</dt><dd><span id=\"{id}\">{first}</span>{bound}</dd></div>\n")
    };
    let rule = if case.answer.can { "not kept yet" } else { "not kept" };
    [
        "<dl class=\"facts\">\n".into(),
        fact("State", "play-state", "0", ""),
        fact("Condition in the last step", "play-condition", "no step yet", ""),
        fact(label, "play-count", "0", &bound),
        fact("Rule", "play-rule", rule, if case.answer.can { "" } else { ", as on every play with this table" }),
        "</dl>\n".into(),
    ]
    .concat()
}

/// What the script counts, and the number that the theorem sets to it: the round number on "can", the number of states on "cannot".
fn count(case: &Case) -> (&'static str, String) {
    let most = format!(" of at most {}", case.answer.round);
    let below = format!("; by the theorem it stays below {}", case.answer.n);
    match (case.answer.can, promises_nothing(case), case.question.mode) {
        (true, true, _) => ("Steps so far", most),
        (true, false, Mode::Fair) => ("Steps with the condition", most),
        (true, false, Mode::Stable) => ("Steps in a row with the condition", most),
        (false, true, _) => ("Steps without the condition", ": every input meets it".into()),
        (false, false, Mode::Fair) => ("Steps in a row without the condition", below),
        (false, false, Mode::Stable) => ("Steps in all without the condition", below),
    }
}

/// Which keys there are.
fn keys(case: &Case) -> String {
    let wires = if case.answer.can { &case.station.inputs } else { &case.station.outputs };
    let name = |(place, wire): (usize, &Wire)| format!("<kbd>{}</kbd> {}, ", place + 1, escaped(&wire.name));
    let names: String = wires.iter().enumerate().map(name).collect();
    format!(
        "<p class=\"keys\">Keys: {names}<kbd>Enter</kbd> Step, <kbd>u</kbd> or <kbd>Backspace</kbd> Undo, \
         <kbd>r</kbd> Restart, <kbd>c</kbd> Copy as text.</p>\n"
    )
}

/// What the script needs, as JSON.
fn data(case: &Case) -> String {
    let (station, answer) = (&case.station, &case.answer);
    let fields = [
        ("can", answer.can.to_string()),
        ("mode", text(case.question.mode.word())),
        ("inputs", list(&station.inputs, |wire| text(&wire.name))),
        ("outputs", list(&station.outputs, |wire| text(&wire.name))),
        ("moves", list(&answer.moves, u8::to_string)),
        ("marks", list(&answer.marks, u8::to_string)),
        ("station", list(&answer.station, u8::to_string)),
        ("outside", list(&answer.outside, u8::to_string)),
        ("meets", list(&case.meets, bool::to_string)),
        ("goal", text(if station.goal == GOAL { "" } else { &station.goal })),
    ];
    let lines: Vec<String> = fields.iter().map(|(name, value)| format!("\"{name}\": {value}")).collect();
    format!("{{\n{}\n}}\n", lines.join(",\n"))
}

/// A list in JSON.
fn list<T>(items: &[T], item: impl Fn(&T) -> String) -> String {
    format!("[{}]", items.iter().map(item).collect::<Vec<_>>().join(","))
}

/// A text in JSON, with no `<`, so that it cannot end the element that it stands in.
fn text(text: &str) -> String {
    let mut json = String::from("\"");
    for c in text.chars() {
        match c {
            '"' | '\\' => json.extend(['\\', c]),
            '<' => json += "\\u003c",
            c if is_odd(c) => json += "\\ufffd",
            c => json.push(c),
        }
    }
    json + "\""
}

#[cfg(test)]
mod tests {
    use super::text;

    #[test]
    fn texts() {
        assert_eq!(text("a \"b\" \\ </script>\n\u{85}é"), r#""a \"b\" \\ \u003c/script>\ufffd\ufffdé""#);
    }
}
