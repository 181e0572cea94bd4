//! What is read from files that are in order.

use crate::station;
use desk::engine::Mode;
use desk::station::{read, Station, Wire};

/// The example of the documentation.
const EXAMPLE: &str = include_str!("../../../examples/break-over-feed-cue.station");

/// A wire.
fn wire(name: &str, note: &str) -> Wire {
    Wire { name: name.into(), note: note.into() }
}

/// The rule's translation, with inputs `cue`, `feed`, `a` and outputs `break`, `p`.
fn rule(text: &str) -> String {
    station(&format!("input cue\ninput feed\ninput a\noutput break\noutput p\nrule {text}\n")).question().rule
}

/// Byte, line, column and width of each token of the rule.
fn tokens(station: &Station) -> Vec<(char, usize, usize, usize)> {
    station.rule.iter().map(|token| (token.byte as char, token.line, token.column, token.width)).collect()
}

#[test]
fn the_example() {
    let station = station(EXAMPLE);
    assert_eq!(station.title, ["a break on a closed cue, with the fallback deck while the feed is silent"]);
    assert_eq!((&*station.outside, &*station.goal), ("the network", "the break has started"));
    assert_eq!(station.inputs, [wire("cue", "the network's cue contact is closed"), wire("feed", "the feed is there")]);
    assert_eq!(station.outputs, [wire("break", "the break starts"), wire("fallback", "the fallback deck plays")]);
    let lines = "2 2\nfair\na&b\n((b>!q)&(!b>q)&!p)U(a&b&p&!q)\n";
    assert_eq!(station.question().lines(), lines);
    assert_eq!((station.promise_at, station.promise_end), ((8, 15), (8, 25)));
    assert_eq!((station.rule_at, station.rule_end), ((9, 7), (9, 92)));
    assert_eq!(
        tokens(&station)[..5],
        [('(', 9, 7, 1), ('(', 9, 8, 1), ('b', 9, 9, 4), ('>', 9, 14, 1), ('!', 9, 16, 1)]
    );
}

#[test]
fn words_and_marks() {
    assert_eq!(rule("not cue"), "!a");
    assert_eq!(rule("next weak next eventually always cue"), "XNFGa");
    assert_eq!(rule("cue until feed release break"), "aUbRp");
    assert_eq!(rule("cue and feed or break implies true and false"), "a&b|p>1&0");
    assert_eq!(rule("! X N F G cue U feed R break & 0 | 1 > (p)"), "!XNFGaUbRp&0|1>(q)");
    assert_eq!(rule("weak\t \tnext cue"), "Na");
    assert_eq!(rule("not(cue)and(feed)"), "!(a)&(b)");
}

#[test]
fn written_together() {
    assert_eq!(rule("XXcue"), "XXa");
    assert_eq!(rule("Fbreak"), "Fp");
    assert_eq!(rule("!pU(a&p)"), "!qU(c&q)");
    assert_eq!(rule("cueUfeed"), "aUb");
    assert_eq!(rule("GF1"), "GF1");
    assert_eq!(rule("XNFGapU"), "XNFGcqU");
    assert_eq!(rule("feedacueX0"), "bcaX0");
}

#[test]
fn the_longest_name_first() {
    let of = |names: &[&str], rule: &str| {
        let inputs: String = names.iter().map(|name| format!("input {name}\n")).collect();
        station(&format!("{inputs}rule {rule}\n")).question().rule
    };
    assert_eq!(of(&["cue", "cue2"], "Xcue2"), "Xb");
    assert_eq!(of(&["cue2", "cue"], "Xcue2Ucue"), "XaUb");
    assert_eq!(of(&["cue", "Xcue"], "Xcue"), "b");
    assert_eq!(of(&["cue", "Xcue"], "XXcue"), "Xb");
    assert_eq!(of(&["cue", "cue1"], "cue1"), "b");
    assert_eq!(of(&["cue"], "cue1"), "a1");
    assert_eq!(of(&["on", "on-air"], "Xon-air"), "Xb");
    assert_eq!(of(&["XX"], "XXX"), "aX");
    assert_eq!(of(&["next-cue", "weak-1"], "next next-cue & weak next weak-1"), "Xa&Nb");
}

#[test]
fn names() {
    let file =
        "input _\ninput a1-b_2-C\ninput Not\ninput next_1\noutput aa\noutput UNTIL\noutput x\noutput RX\nrule 1\n";
    let station = station(file);
    let names = |wires: &[Wire]| wires.iter().map(|wire| wire.name.clone()).collect::<Vec<_>>();
    assert_eq!(names(&station.inputs), ["_", "a1-b_2-C", "Not", "next_1"]);
    assert_eq!(names(&station.outputs), ["aa", "UNTIL", "x", "RX"]);
}

#[test]
fn places_and_widths() {
    let station = station("input cue\nrule\tXXcue  until weak  next\t(true)# F\n # G\n\n  & weak # next\n\tnext 0\n");
    let expected = [
        ('X', 2, 6, 1),
        ('X', 2, 7, 1),
        ('a', 2, 8, 3),
        ('U', 2, 13, 5),
        ('N', 2, 19, 10),
        ('(', 2, 30, 1),
        ('1', 2, 31, 4),
        (')', 2, 35, 1),
        ('&', 5, 3, 1),
        ('N', 5, 5, 4),
        ('0', 6, 7, 1),
    ];
    assert_eq!(tokens(&station), expected);
    assert_eq!((station.rule_at, station.rule_end), ((2, 6), (6, 8)));
}

#[test]
fn lines_that_go_on() {
    let file = "promise\tfair # what the network promises\n# a comment\n\n  cue # on\n\n  | not cue\n\
        rule # the rule\nF\ncue\ninput cue\n";
    let station = station(file);
    assert_eq!(station.question().lines(), "1 0\nfair\na|!a\nFa\n");
    assert_eq!((station.promise_at, station.promise_end), ((4, 3), (6, 12)));
    assert_eq!((station.rule_at, station.rule_end), ((8, 1), (9, 4)));
}

#[test]
fn a_name_may_begin_like_a_line_word() {
    let station = station("input input-1\ninput ruler\ninput goal_\nrule F (\ninput-1 &\nruler &\ngoal_ )");
    assert_eq!(station.question().rule, "F(a&b&c)");
}

#[test]
fn nothing_promised() {
    let station = station("# x\ninput cue\n  rule F cue\n");
    assert_eq!((station.mode, station.question().condition), (Mode::Fair, "1".to_string()));
    assert_eq!((station.promise_at, station.promise_end, station.rule_at), ((3, 3), (3, 3), (3, 8)));
    assert_eq!((&*station.outside, &*station.goal), ("the outside", "the rule is kept"));
}

#[test]
fn modes() {
    let mode = |text: &str| station(&format!("input cue\nrule F cue\npromise {text}\n"));
    assert_eq!(mode("stable cue").question().lines(), "1 0\nstable\na\nFa\n");
    assert_eq!(mode("fair cue").question().lines(), "1 0\nfair\na\nFa\n");
    assert_eq!(mode("fair# all\n!cue").question().lines(), "1 0\nfair\n!a\nFa\n");
}

#[test]
fn titles() {
    let file = "\n  ## first  \n#\n\t#second # part\n\n#   \n# third\nrule 1\n# no title\n";
    assert_eq!(station(file).title, ["first", "second # part", "third"]);
    assert!(station("rule 1\n# no title\n").title.is_empty());
    assert!(station("rule 1").title.is_empty());
}

#[test]
fn descriptions_are_text() {
    let file = "input cue \t the cue # 1: \u{fc}ber & \u{65e5}\u{672c}, rule\t\ninput feed\n\
        outside  R\u{e4}dio <b>\ngoal it's # done \nrule 1\n";
    let station = station(file);
    assert_eq!(station.inputs, [wire("cue", "the cue # 1: \u{fc}ber & \u{65e5}\u{672c}, rule"), wire("feed", "")]);
    assert_eq!((&*station.outside, &*station.goal), ("R\u{e4}dio <b>", "it's # done"));
}

#[test]
fn ends_of_lines_and_byte_order_mark() {
    let crlf = EXAMPLE.replace('\n', "\r\n");
    let marked = format!("\u{feff}{crlf}");
    for file in [&crlf, &marked, &marked[..marked.len() - 2], &EXAMPLE[..EXAMPLE.len() - 1]] {
        let (one, other) = (station(EXAMPLE), station(file));
        assert_eq!((&one.title, &one.inputs, &one.outputs), (&other.title, &other.inputs, &other.outputs));
        assert_eq!((&one.outside, &one.goal, one.mode), (&other.outside, &other.goal, other.mode));
        assert_eq!((&one.promise, &one.rule, &one.lines), (&other.promise, &other.rule, &other.lines));
        assert_eq!((one.promise_at, one.rule_at, one.rule_end), (other.promise_at, other.rule_at, other.rule_end));
    }
    assert_eq!(tokens(&station("\u{feff}rule 1")), [('1', 1, 6, 1)]);
}

#[test]
fn the_largest_file() {
    let file = |length: usize| format!("rule 1 #{}", "x".repeat(length - 8));
    assert!(read(file(65_536).as_bytes()).is_ok());
    assert!(read(file(65_537).as_bytes()).is_err());
}
