//! Each kind of fault, with its place and the whole text that is shown.

use crate::refused;
use desk::station::read;

/// Place and sentence of a file's fault, as the first line that is shown has them.
fn fault(file: &str) -> String {
    refused(file).lines().next().unwrap_or_default().strip_prefix("x.station:").unwrap_or_default().into()
}

/// Place and sentence of a rule's fault, with inputs `cue`, `feed` and the output `break`; the rule begins at 1:6.
fn rule(text: &str) -> String {
    fault(&format!("rule {text}\ninput cue\ninput feed\noutput break\n"))
}

/// The same with names of one letter, `a` and `p`.
fn short(text: &str) -> String {
    fault(&format!("rule {text}\ninput a\noutput p\n"))
}

#[test]
fn shown_with_a_caret() {
    let shown = "x.station:2:11: unknown name 'feet': did you mean 'feed'?\n    rule cue& feet | 1\n              ^\n";
    assert_eq!(refused("input feed\nrule cue& feet | 1\ninput cue"), shown);
    let shown = "x.station:1:6: '~' is no mark: write '!' or 'not'\n    rule ~cue\n         ^\n";
    assert_eq!(refused("rule ~cue\ninput cue"), shown);
    let lead = "a line begins with 'input', 'output', 'outside', 'goal', 'promise' or 'rule', not with";
    let shown = format!("x.station:3:1: {lead} 'Rule': did you mean 'rule'?\n    Rule F cue\n    ^\n");
    assert_eq!(refused("# t\ninput cue\nRule F cue\n"), shown);
    let shown = "x.station:2:6: the input has no name\n    input\n         ^\n";
    assert_eq!(refused("\u{feff}# t\r\ninput\r\nrule 1\r\n"), shown);
    let shown = "x.station:3:7: the name 'cue' is already declared, in line 1\n    input cue  again\n          ^\n";
    assert_eq!(refused("input cue\n\ninput\tcue\t again\nrule 1"), shown);
    let shown =
        "x.station:2:10: the file has no rule: a line 'rule FORMULA' is missing\n    input cue\n             ^\n";
    assert_eq!(refused("# t\ninput cue\n"), shown);
    let shown = "x.station:1:1: the file has no rule: a line 'rule FORMULA' is missing\n\n    ^\n";
    assert_eq!(refused(""), shown);
    let shown = "x.station:2:3: the promise has no formula\n      promise fair # x\n      ^\n";
    assert_eq!(refused("rule 1\n  promise fair # x\n"), shown);
    let shown = "x.station:1:13: unknown name 'nocue': the names are 'cue', 'feed' and 'break'\n\
        \x20   rule (cue & nocue)\n                ^\n";
    assert_eq!(refused("rule (cue & nocue)\ninput cue\ninput feed\noutput break"), shown);
    let shown = "x.station:1:11: the rule ends too early: nothing follows '&'\n    rule cue &\n              ^\n";
    assert_eq!(refused("rule cue &\ninput cue"), shown);
}

#[test]
fn long_and_odd_lines_shown() {
    let x = |count: usize| "x".repeat(count);
    let lead = "x.station:1:106: '?' is no mark\n";
    let shown = format!("{lead}    ..{}?{}..\n    {}^\n", " ".repeat(35), x(34), " ".repeat(37));
    assert_eq!(refused(&format!("rule {}?{}", " ".repeat(100), x(100))), shown);
    let lead = "x.station:1:106: '?' is no mark\n";
    let shown = format!("{lead}    ..{}?xyz\n    {}^\n", " ".repeat(66), " ".repeat(68));
    assert_eq!(refused(&format!("rule {}?xyz", " ".repeat(100))), shown);
    let lead = "x.station:1:6: '?' is no mark\n";
    let shown = format!("{lead}    rule ?{}..\n         ^\n", x(64));
    assert_eq!(refused(&format!("rule ?{}", x(100))), shown);
    let shown = format!("{lead}    rule ?{}\n         ^\n", x(64));
    assert_eq!(refused(&format!("rule ?{}", x(64))), shown);
    let shown =
        format!("x.station:1:71: '?' is no mark\n    ..{}{}?\n    {}^\n", "ule ", " ".repeat(65), " ".repeat(71));
    assert_eq!(refused(&format!("rule {}?", " ".repeat(65))), shown);
    let shown = format!("x.station:1:70: '?' is no mark\n    rule {}?\n    {}^\n", " ".repeat(64), " ".repeat(69));
    assert_eq!(refused(&format!("rule {}?", " ".repeat(64))), shown);
    let shown = "x.station:1:6: the character U+0007 is no mark\n    rule ? ? ? \u{e9} ?\n         ^\n";
    assert_eq!(refused("rule \u{7}\t\u{202e} \u{2069} \u{e9}\t\u{85}"), shown);
    let name = format!("'{}..' cannot be a name", "+".repeat(40));
    assert!(fault(&format!("input {}", "+".repeat(50))).contains(&name));
}

#[test]
fn first_words() {
    let lead = "a line begins with 'input', 'output', 'outside', 'goal', 'promise' or 'rule', not with";
    assert_eq!(fault("inputs cue"), format!("1:1: {lead} 'inputs': did you mean 'input'?"));
    assert_eq!(fault(" goal: x"), format!("1:2: {lead} 'goal:': did you mean 'goal'?"));
    assert_eq!(fault("ruel 1"), format!("1:1: {lead} 'ruel': did you mean 'rule'?"));
    assert_eq!(fault("INPUT cue"), format!("1:1: {lead} 'INPUT': did you mean 'input'?"));
    assert_eq!(fault("rule 1\ninput cue\n & cue\n"), format!("3:2: {lead} '&'"));
    assert_eq!(fault("rule 1\n\n# x\ngoal x\n\n# x\n& cue\n"), format!("7:1: {lead} '&'"));
    assert_eq!(fault("cue is here"), format!("1:1: {lead} 'cue'"));
    assert_eq!(fault("x\u{1b}[1m y"), format!("1:1: {lead} 'x?[1m'"));
}

#[test]
fn lines_said_twice() {
    let second = |word| format!("there is a second '{word}' line, and one is allowed: the first is line 1");
    assert_eq!(fault("rule 1\n rule 1"), format!("2:2: {}", second("rule")));
    assert_eq!(fault("promise fair 1\n\npromise stable 1"), format!("3:1: {}", second("promise")));
    assert_eq!(fault("goal x\ngoal x"), format!("2:1: {}", second("goal")));
    assert_eq!(fault("outside x\noutside"), format!("2:1: {}", second("outside")));
    assert_eq!(fault("input x\noutput x"), "2:8: the name 'x' is already declared, in line 1");
    assert_eq!(fault("output x\n\noutput y\ninput x"), "4:7: the name 'x' is already declared, in line 1");
}

#[test]
fn wires() {
    let four = "input x1\ninput x2\ninput x3\ninput x4\n";
    assert_eq!(fault(&format!("{four} input x5")), "5:2: this is the fifth input, and at most 4 are allowed");
    let four = four.replace("input x", "output y");
    assert_eq!(fault(&format!("{four}input x\noutput")), "6:1: this is the fifth output, and at most 4 are allowed");
    assert_eq!(fault("output \t"), "1:7: the output has no name");
    let shape =
        "a name has letters (a to z, A to Z), digits and '_', begins with a letter or '_', and may have '-' inside";
    for name in ["1a", "-a", "a-", "a--b", "a-_-", "cue,", "m\u{fc}de", "#", "a&b", "0", "caf\u{e9}"] {
        assert_eq!(fault(&format!("input  {name} x")), format!("1:8: '{name}' cannot be a name: {shape}"));
    }
    for name in ["X", "N", "F", "G", "U", "R"] {
        assert_eq!(fault(&format!("input {name}")), format!("1:7: '{name}' cannot be a name: it is a mark of rules"));
    }
    for name in ["input", "output", "outside", "goal", "promise", "rule"] {
        assert_eq!(
            fault(&format!("input {name}")),
            format!("1:7: '{name}' cannot be a name: it is a word that lines begin with")
        );
    }
    for name in "weak fair stable true false not next eventually always until release and or implies".split(' ') {
        let message = format!("1:8: '{name}' cannot be a name: it is a word of promises and rules");
        assert_eq!(fault(&format!("output {name}")), message);
    }
}

#[test]
fn missing_parts() {
    assert_eq!(fault("promise"), "1:8: after 'promise' comes 'fair' or 'stable'");
    assert_eq!(fault("promise Fair 1"), "1:9: after 'promise' comes 'fair' or 'stable': did you mean 'fair'?");
    assert_eq!(fault("promise stabel 1"), "1:9: after 'promise' comes 'fair' or 'stable': did you mean 'stable'?");
    assert_eq!(fault("promise # fair\nfair 1"), "1:9: after 'promise' comes 'fair' or 'stable'");
    assert_eq!(fault("promise cue"), "1:9: after 'promise' comes 'fair' or 'stable'");
    assert_eq!(fault("promise fair(1)"), "1:9: after 'promise' comes 'fair' or 'stable'");
    assert_eq!(fault("outside  "), "1:8: after 'outside' comes who sets the inputs");
    assert_eq!(fault("goal"), "1:5: after 'goal' comes what it means that the rule is kept");
    assert_eq!(fault(" rule # F x\n# x\n\ninput x"), "1:2: the rule has no formula");
    assert_eq!(fault("rule\n promise fair"), "1:1: the rule has no formula");
    assert_eq!(fault("promise fair\nrule"), "1:1: the promise has no formula");
    assert_eq!(fault("# x\npromise fair 1\n\n\n"), "4:1: the file has no rule: a line 'rule FORMULA' is missing");
    assert_eq!(fault("# x\r\npromise fair 1\r\n"), "2:15: the file has no rule: a line 'rule FORMULA' is missing");
}

#[test]
fn unknown_names() {
    assert_eq!(rule("F nocue"), "1:8: unknown name 'nocue': the names are 'cue', 'feed' and 'break'");
    assert_eq!(rule("Fnocue"), "1:6: unknown name 'Fnocue': the names are 'cue', 'feed' and 'break'");
    assert_eq!(rule("Cue"), "1:6: unknown name 'Cue': did you mean 'cue'?");
    assert_eq!(rule("ceu"), "1:6: unknown name 'ceu': did you mean 'cue'?");
    assert_eq!(rule("cuee"), "1:6: unknown name 'cuee': did you mean 'cue'?");
    assert_eq!(rule("fed"), "1:6: unknown name 'fed': did you mean 'feed'?");
    assert_eq!(rule("1 | brake"), "1:10: unknown name 'brake': the names are 'cue', 'feed' and 'break'");
    assert_eq!(rule("AND"), "1:6: unknown name 'AND': write 'and'");
    assert_eq!(rule("cue Until feed"), "1:10: unknown name 'Until': write 'until'");
    assert_eq!(rule("allways cue"), "1:6: unknown name 'allways': did you mean 'always'?");
    assert_eq!(rule("WEAK next cue"), "1:6: unknown name 'WEAK': write 'weak next'");
    assert_eq!(rule("weaknext cue"), "1:6: unknown name 'weaknext': write 'weak next'");
    assert_eq!(rule("fair"), "1:6: unknown name 'fair': the names are 'cue', 'feed' and 'break'");
    assert_eq!(rule("cue-feed"), "1:6: unknown name 'cue-feed': the names are 'cue', 'feed' and 'break'");
    let blank = "it is a word that lines begin with, and a blank follows it there";
    assert_eq!(rule("(cue)\nrule(1)"), format!("2:1: unknown name 'rule': {blank}"));
    assert_eq!(rule("1 > input"), format!("1:10: unknown name 'input': {blank}"));
    let line = "did you mean a line that begins with";
    assert_eq!(rule("(cue)\n Rule 1"), format!("2:2: unknown name 'Rule': {line} 'rule'?"));
    assert_eq!(rule("(cue)\noutputs x"), format!("2:1: unknown name 'outputs': {line} 'output'?"));
    assert_eq!(rule("Rule"), "1:6: unknown name 'Rule': the names are 'cue', 'feed' and 'break'");
    assert_eq!(short("b"), "1:6: unknown name 'b': the names are 'a' and 'p'");
    assert_eq!(short("A"), "1:6: unknown name 'A': did you mean 'a'?");
    assert_eq!(short("aqU"), "1:6: unknown name 'aqU': the names are 'a' and 'p'");
    assert_eq!(fault("rule x\ninput cue"), "1:6: unknown name 'x': the only name is 'cue'");
    assert_eq!(fault("rule x\n"), "1:6: unknown name 'x': no name is declared");
}

#[test]
fn weak_without_next() {
    assert_eq!(rule("weak cue"), "1:6: after 'weak' comes 'next'");
    assert_eq!(rule("cue & weak"), "1:12: after 'weak' comes 'next'");
    assert_eq!(rule("weak # next\n Next cue"), "1:6: after 'weak' comes 'next'");
    assert_eq!(rule("weak nextcue"), "1:6: after 'weak' comes 'next'");
}

#[test]
fn no_marks() {
    assert_eq!(rule("cue -> feed"), "1:10: '-' is no mark: write '>' or 'implies'");
    assert_eq!(rule("cue->feed"), "1:9: '-' is no mark: write '>' or 'implies'");
    assert_eq!(rule("cue - > feed"), "1:10: '-' is no mark: it may stand only inside a name");
    assert_eq!(rule("cue => feed"), "1:10: '=' is no mark: write '>' or 'implies'");
    assert_eq!(rule("cue = feed"), "1:10: '=' is no mark: for 'the same' write '(x > y) & (y > x)'");
    assert_eq!(rule("cue <-> feed"), "1:10: '<' is no mark: for 'the same' write '(x > y) & (y > x)'");
    assert_eq!(rule("~cue"), "1:6: '~' is no mark: write '!' or 'not'");
    assert_eq!(rule("<> cue"), "1:6: '<' is no mark: write 'F' or 'eventually'");
    assert_eq!(rule("[] cue"), "1:6: '[' is no mark: write 'G' or 'always'");
    assert_eq!(rule("[cue]"), "1:6: '[' is no mark: write '('");
    assert_eq!(rule("\u{ac}cue"), "1:6: '\u{ac}' is no mark: write '!' or 'not'");
    assert_eq!(rule("cue \u{2192} feed"), "1:10: '\u{2192}' is no mark: write '>' or 'implies'");
    assert_eq!(rule("cue;"), "1:9: ';' is no mark");
    assert_eq!(rule("\u{e9}"), "1:6: '\u{e9}' is no mark: names have the letters a to z and A to Z only");
    assert_eq!(rule("cue\u{a0}& feed"), "1:9: the character U+00A0 is no mark");
    assert_eq!(rule("cue \u{200b}& feed"), "1:10: the character U+200B is no mark");
    assert_eq!(rule("cue & \u{1f4fb}"), "1:12: the character U+1F4FB is no mark");
    assert_eq!(rule("cue\r "), "1:9: the character U+000D is no mark");
    assert_eq!(fault("promise fair \0\nrule 1"), "1:14: the character U+0000 is no mark");
}

#[test]
fn not_text() {
    let said = |file: &[u8]| read(file).expect_err("a bad file").shown("x.station", file);
    let shown = "x.station:2:8: the file is not UTF-8 from here on\n    input \u{e9}\u{fffd}e\n           ^\n";
    assert_eq!(said(b"# x\r\ninput \xc3\xa9\xff\x65\r\nrule 1\n"), shown);
    let shown = "x.station:1:3: the file is not UTF-8 from here on\n    # \u{fffd}\n      ^\n";
    assert_eq!(said(b"\xef\xbb\xbf# \xc3"), shown);
    let shown = "x.station:1:1: the file is not UTF-8 from here on\n    \u{fffd}\n    ^\n";
    assert_eq!(said(b"\xff"), shown);
    let shown = "x.station:1:1: the file has more than 65536 bytes, which is the most\n    rule\n    ^\n";
    assert_eq!(said(format!("rule\n1 #{}", "x".repeat(65_537 - 8)).as_bytes()), shown);
}

#[test]
fn names_but_for_capitals_are_no_marks() {
    let file = |formula: &str| format!("input f1\ninput X2\noutput x1\nrule {formula}\n");
    assert_eq!(fault(&file("!x1 U (F1 & X1)")), "4:13: unknown name 'F1': did you mean 'f1'?");
    assert_eq!(fault(&file("!x1 U (f1 & X1)")), "4:18: unknown name 'X1': did you mean 'x1'?");
    assert_eq!(fault(&file("f1 & x2")), "4:11: unknown name 'x2': did you mean 'X2'?");
    let read = |formula: &str| read(file(formula).as_bytes()).expect("a good file").question().rule;
    assert_eq!(read("F 1 U Ff1 & X2 & XX2 & X 1"), "F1UFa&b&Xb&X1");
    let read = |text: &str| desk::station::read(text.as_bytes()).expect("a good file").question().rule;
    assert_eq!(read("input f\ninput x\noutput XX\nrule F f & X x & xx & XX & Fx\n"), "Fa&Xb&bb&p&Fb");
}

#[test]
fn the_first_fault_is_told() {
    let lead = "a line begins with 'input', 'output', 'outside', 'goal', 'promise' or 'rule', not with";
    assert_eq!(fault("rule ~x\ninput X\ninput N\n"), "2:7: 'X' cannot be a name: it is a mark of rules");
    assert_eq!(fault("promise fair ~\ngoal\n"), "2:5: after 'goal' comes what it means that the rule is kept");
    assert_eq!(fault("oops\npromise"), format!("1:1: {lead} 'oops'"));
    assert_eq!(fault("promise fair\nrule ~\n"), "2:6: '~' is no mark: write '!' or 'not'");
    assert_eq!(fault("rule ;\npromise fair ~\n"), "1:6: ';' is no mark");
    assert_eq!(fault("promise fair ~\nrule ;\n"), "1:14: '~' is no mark: write '!' or 'not'");
    assert_eq!(fault("promise fair\n"), "1:1: the promise has no formula");
    assert_eq!(fault("rule 1 1 & ;\n"), "1:12: ';' is no mark");
}
