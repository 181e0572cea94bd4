//! The engine's refusals, in the file's words and at the file's place.

use crate::refused;
use desk::engine::Refusal;
use desk::station::read;

/// The two lines that declare the inputs `cue` and `feed`, and the one of the output `break`.
const WIRES: &str = "input cue\ninput feed\noutput break\n";

/// Place and sentence of what is refused in a file with these wires; the text begins in line 4.
fn told(text: &str) -> String {
    let shown = refused(&format!("{WIRES}{text}"));
    shown.lines().next().unwrap_or_default().strip_prefix("x.station:").unwrap_or_default().into()
}

#[test]
fn bad_rules() {
    let shown =
        "x.station:4:12: the rule: '&' cannot stand here: write it once\n    rule cue & & feed\n               ^\n";
    assert_eq!(refused(&format!("{WIRES}rule cue & & feed")), shown.replace(": write it once", ""));
    assert_eq!(told("rule cue && feed"), "4:11: the rule: '&' cannot stand here: write it once");
    assert_eq!(told("rule cue || feed"), "4:11: the rule: '|' cannot stand here: write it once");
    assert_eq!(told("rule cue !feed"), "4:10: the rule: '!' cannot stand here");
    assert_eq!(told("rule (cue and\n until feed)"), "5:2: the rule: 'until' cannot stand here");
    assert_eq!(told("rule XXcueUUfeed"), "4:12: the rule: 'U' cannot stand here");
    assert_eq!(told("rule F cue weak  next feed"), "4:12: the rule: 'weak next' cannot stand here");
    assert_eq!(told("rule F cue weak\n next feed"), "4:12: the rule: 'weak next' cannot stand here");
    assert_eq!(told("rule F cue N feed"), "4:12: the rule: 'N' cannot stand here");
    assert_eq!(told("rule cue true"), "4:10: the rule: 'true' cannot stand here");
    assert_eq!(told("rule cue )"), "4:10: the rule: ')' cannot stand here");
    assert_eq!(told("rule (cue &\nfeed)\n) # x"), "6:1: the rule: ')' cannot stand here");
}

#[test]
fn unfinished_rules() {
    assert_eq!(told("rule (cue & (feed)  "), "4:19: the rule ends too early: a ')' is missing");
    assert_eq!(told("rule cue until # x\n\n"), "4:15: the rule ends too early: nothing follows 'until'");
    assert_eq!(told("rule cue & weak # x\n next # y\n"), "5:6: the rule ends too early: nothing follows 'weak next'");
    assert_eq!(told("rule cue & ("), "4:13: the rule ends too early: nothing follows '('");
    assert_eq!(told("rule\n\n  not\n"), "6:6: the rule ends too early: nothing follows 'not'");
}

#[test]
fn bad_promises() {
    let shown = "x.station:5:20: 'break' is an output, and a promise has inputs only\n\
        \x20   promise fair cue & break\n                       ^\n";
    assert_eq!(refused(&format!("{WIRES}rule F cue\npromise fair cue & break")), shown);
    let temporal = "cannot stand in a promise, which has no temporal operators";
    assert_eq!(told("rule 1\npromise stable always cue"), format!("5:16: 'always' {temporal}"));
    assert_eq!(told("rule 1\npromise fair cue until feed"), format!("5:18: 'until' {temporal}"));
    assert_eq!(told("rule 1\npromise fair weak next cue"), format!("5:14: 'weak next' {temporal}"));
    assert_eq!(told("rule 1\npromise fair XXcue"), format!("5:14: 'X' {temporal}"));
    assert_eq!(told("rule 1\npromise fair cue feed"), "5:18: the promise: 'feed' cannot stand here");
    assert_eq!(told("rule 1\npromise fair cue |"), "5:19: the promise ends too early: nothing follows '|'");
    assert_eq!(told("promise fair (cue |feed\nrule 1"), "4:24: the promise ends too early: a ')' is missing");
}

#[test]
fn the_rule_is_refused_first() {
    assert_eq!(told("promise fair break\nrule cue feed"), "5:10: the rule: 'feed' cannot stand here");
}

#[test]
fn too_long() {
    let long = |count: usize| "!".repeat(count - 1) + "1";
    let message = "names and marks, and at most 255 are allowed";
    assert_eq!(told(&format!("rule {}", long(256))), format!("4:6: the rule has 256 {message}"));
    assert_eq!(told(&format!("rule 1\npromise fair {}", long(300))), format!("5:14: the promise has 300 {message}"));
    assert_eq!(
        told(&format!("promise fair {}\nrule {}", long(256), long(257))),
        format!("5:6: the rule has 257 {message}")
    );
    let file = format!("promise fair {}\nrule {}", long(256), long(255));
    assert_eq!(told(&file), format!("4:14: the promise has 256 {message}"));
    let limit = "names, constants and operators, and at most 64 are allowed";
    assert_eq!(told(&format!("rule {}", long(255))), format!("4:6: the rule has 255 {limit}"));
}

#[test]
fn too_many_nodes() {
    let many = |count: usize| "(".to_string() + &"not ".repeat(count - 1) + "cue)";
    let limit = "names, constants and operators, and at most 64 are allowed";
    assert_eq!(told(&format!("rule\n {}", many(65))), format!("5:2: the rule has 65 {limit}"));
    assert_eq!(told(&format!("rule 1\npromise stable {}", many(70))), format!("5:16: the promise has 70 {limit}"));
}

#[test]
fn too_many_temporal_operators() {
    let message = "temporal operators, and at most 5 are allowed";
    assert_eq!(
        told("rule XXcue U XX\n weak next Xfeed"),
        format!("5:2: the rule has 7 {message}: 'weak next' is the sixth")
    );
    assert_eq!(
        told("rule X X X X X eventually cue"),
        format!("4:16: the rule has 6 {message}: 'eventually' is the sixth")
    );
}

#[test]
fn too_many_states() {
    let wires: String = (1..5).map(|k| format!("input x{k}\noutput y{k}\n")).collect();
    let rule = "rule F((x1|Gy1)&(x2|Gy2)&(x3|Gy3)&(x4|Gy4))";
    let message = "the rule takes more than 128 states, which is the most that an automaton may have";
    assert!(
        refused(&format!("{wires}{rule}")).starts_with(&format!("x.station:9:6: {message}\n    {rule}\n         ^\n"))
    );
}

#[test]
fn promises_that_nobody_can_keep() {
    assert_eq!(
        told("rule 1\npromise fair cue & !cue"),
        "5:14: no input meets the promise's condition, so the outside could not keep it"
    );
    let file = format!("outside the \u{1b} network\n{WIRES}rule 1\npromise stable\n false");
    let shown = "x.station:7:2: no input meets the promise's condition, so the ? network could not keep it\n\
        \x20    false\n     ^\n";
    assert_eq!(refused(&file), shown);
}

#[test]
fn refusals_that_do_not_arise() {
    let station = read(format!("{WIRES}rule F cue").as_bytes()).unwrap();
    for number in [1, 3, 10, 11, 12, 13, 200] {
        let fault = station.refused(Refusal { number, place: 7 });
        assert_eq!((fault.line, fault.column), (4, 6));
        assert_eq!(fault.message, format!("the engine refuses the rule (refusal {number})"));
    }
    for number in [2, 4, 5, 6, 7, 8] {
        let fault = station.refused(Refusal { number, place: 1000 });
        assert_eq!(fault.line, 4);
    }
}
