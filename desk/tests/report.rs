//! What a report says: the answer's sentence, the words of formulas, the listing, the play that defeats a station, other promises, warnings.

use desk::asking;
use desk::case::Case;
use desk::engine::{Mode, Position, Question};
use desk::play::{self, OddRule};
use desk::report::ending::listing;
use desk::report::page;
use desk::sentences::{ordinal, verdict, Style};
use desk::tree;
use desk::words::{Reading, Words};
use std::collections::BTreeSet;
use std::fs;
use std::path::{Path, PathBuf};

/// The repository's folder.
fn root() -> PathBuf {
    Path::new(env!("CARGO_MANIFEST_DIR")).join("..")
}

/// The station files of examples/, by name.
fn examples() -> Vec<(String, Case)> {
    let mut found = Vec::new();
    for entry in fs::read_dir(root().join("examples")).unwrap() {
        let path = entry.unwrap().path();
        if path.extension().is_some_and(|ending| ending == "station") {
            let name = path.file_stem().unwrap().to_str().unwrap().to_string();
            found.push((name, case(&fs::read_to_string(&path).unwrap())));
        }
    }
    found.sort_by(|(a, _), (b, _)| a.cmp(b));
    assert_eq!(found.len(), 12);
    found
}

/// The case of a station file's text.
fn case(file: &str) -> Case {
    Case::of(file.as_bytes()).unwrap_or_else(|fault| panic!("{}", fault.shown("file", file.as_bytes())))
}

/// One of the examples.
fn example(name: &str) -> Case {
    examples().into_iter().find(|(known, _)| known == name).unwrap().1
}

/// A station with one cue and one break.
fn small(promise: &str, rule: &str) -> Case {
    case(&format!("input cue\noutput break\n{promise}\nrule {rule}\n"))
}

/// The answer's sentence.
fn sentence(case: &Case) -> String {
    verdict(case, &Style { text: |text| text.into(), code: |text| format!("`{text}`") })
}

#[test]
fn sentences() {
    let cases = [
        (
            example("break-over-feed-cue"),
            "Yes. Whatever the network does, the break has started by the 1st step with `cue & feed` at the latest.",
        ),
        (
            example("break-over-feed"),
            "No. Whatever the station does, the network can keep its promise (`cue` again and again) and the rule is still never kept.",
        ),
        (
            small("promise stable cue", "break U (cue & X (cue & X cue))"),
            "Yes. Whatever the outside does, the rule is kept by the 3rd step in a row with `cue` at the latest.",
        ),
        (small("", "X X break"), "Yes. Whatever the outside does, the rule is kept by the 3rd step at the latest."),
        (
            small("", "F cue"),
            "No. Whatever the station does, the outside can see to it that the rule is never kept.",
        ),
        (
            small("promise stable cue", "!break U (break & X cue)"),
            "No. Whatever the station does, the outside can keep its promise (`cue` in every step from some step on) \
             and the rule is still never kept.",
        ),
    ];
    for (case, said) in cases {
        assert_eq!(sentence(&case), said);
    }
    let ordinals = [1, 2, 3, 4, 11, 12, 13, 21, 22, 101, 111, 112, 123].map(ordinal);
    assert_eq!(ordinals.join(" "), "1st 2nd 3rd 4th 11th 12th 13th 21st 22nd 101st 111th 112th 123rd");
}

#[test]
fn pages_hold_the_engines_listing() {
    for (name, case) in examples() {
        let expected = fs::read_to_string(root().join(format!("examples/{name}.listing"))).unwrap();
        assert_eq!(listing(&case), expected, "{name}");
        let page = page(&case, &name, b"", None);
        assert!(page.contains(&format!("<pre class=\"listing\">{expected}</pre>")), "{name}");
        assert!(page.contains(&format!("<pre>{}</pre>", desk::html::escaped(&case.question.lines()))), "{name}");
    }
}

/// A reading as indented lines, without the names' marks.
fn lines(reading: &Reading, depth: usize) -> String {
    let line = |text: &str| format!("{}{}\n", "  ".repeat(depth), text.replace("<b>", "").replace("</b>", ""));
    match reading {
        Reading::Line(text) => line(text),
        Reading::List(lead, parts) => line(lead) + &parts.iter().map(|part| lines(part, depth + 1)).collect::<String>(),
    }
}

/// What a rule reads with a cue, a feed, a break and a deck.
fn read(rule: &str) -> String {
    let case = case("input cue\ninput feed\noutput break\noutput deck\nrule 1\n");
    lines(&Words::of(&case).reading(&tree::parse(rule).unwrap()), 0)
}

#[test]
fn words() {
    let cases = [
        ("a", "cue\n"),
        ("!a&q", "not cue and deck\n"),
        ("(a|b)&!(p&q)>0", "if ((cue or feed) and not (break and deck)) then false\n"),
        ("a>b>p", "if cue then (if feed then break)\n"),
        ("!!a|1", "not not cue or true\n"),
        ("Xa", "there is a step after this one, and in it:\n  cue\n"),
        ("N!a", "if there is a step after this one, then in it:\n  not cue\n"),
        ("GFp", "in this step and every later one so far:\n  in this step or a later one:\n    break\n"),
        (
            "!pU(a&p)",
            "both of these hold:\n  a step comes, this one or a later one, in which:\n    cue and break\n  \
             and in every step before that one, from this one on:\n    not break\n",
        ),
        (
            "aRp",
            "the first of these two holds in this step and every later one so far, or else up to and including a step in which \
             the second holds as well:\n  break\n  cue\n",
        ),
        ("a&Xb&p", "all of these hold:\n  cue\n  there is a step after this one, and in it:\n    feed\n  break\n"),
        (
            "Xa>Fp",
            "one thing follows from another:\n  if this holds:\n    there is a step after this one, and in it:\n      cue\n  \
             then this holds too:\n    in this step or a later one:\n      break\n",
        ),
        ("!Xa|p", "at least one of these holds:\n  it is not so that:\n    there is a step after this one, and in it:\n      cue\n  break\n"),
    ];
    for (rule, said) in cases {
        assert_eq!(read(rule), said, "{rule}");
    }
}

#[test]
fn plays_defeat_the_station() {
    let mut defeats = 0;
    for (name, case) in examples().into_iter().filter(|(_, case)| !case.answer.can) {
        let (steps, back) = play::defeat(&case);
        let letters: Vec<u8> =
            steps.iter().map(|step| (step.input + (step.output << case.answer.inputs)) as u8).collect();
        let again = [&letters[..], &letters[back..], &letters[back..]].concat();
        let mut position = Position { state: 0, reached: false };
        for (k, &letter) in again.iter().enumerate() {
            let (input, output) = (letter as usize % (1 << case.answer.inputs), letter >> case.answer.inputs);
            assert_eq!(input, case.answer.input(position.state), "{name}: step {k}");
            let station = vec![output; case.answer.station.len()];
            assert_eq!(case.answer.follow(&station, input, &mut position), Some(output as usize));
            assert!(!position.reached && !case.question.satisfied(&again[..=k]), "{name}: step {k}");
        }
        let kept = |step: &play::Step| step.condition;
        match case.question.mode {
            Mode::Fair => assert!(steps[back..].iter().any(kept), "{name}"),
            Mode::Stable => assert!(steps[back..].iter().all(kept), "{name}"),
        }
        defeats += 1;
    }
    assert_eq!(defeats, 4);
}

#[test]
fn other_promises() {
    let ask = |name: &str| {
        let other = asking::other(&example(name));
        let narrower: Vec<_> =
            other.narrower.iter().map(|asked| (asked.mode, asked.meets.clone(), asked.round)).collect();
        (other.mode.map(|asked| (asked.mode, asked.can)), narrower, other.questions)
    };
    let both = vec![false, false, false, true];
    let turned = |mode, can| Some((mode, can));
    assert_eq!(ask("break-over-feed"), (turned(Mode::Stable, false), vec![(Mode::Fair, both, 1)], 4));
    assert_eq!(ask("armed-break-unpromised"), (None, vec![(Mode::Fair, vec![false, true], 2)], 3));
    assert_eq!(ask("settled-feed-fair"), (turned(Mode::Stable, true), vec![], 1));
    assert_eq!(ask("preroll"), (turned(Mode::Fair, false), vec![], 1));
}

/// Whether a promise is at least as strong as another.
fn implies(strong: &(Mode, Vec<bool>), weak: &(Mode, Vec<bool>)) -> bool {
    (weak.0 == Mode::Fair || strong.0 == Mode::Stable) && strong.1.iter().zip(&weak.1).all(|(x, y)| *y || !*x)
}

/// Of all promises that fix some inputs besides, and the other mode, exactly the weakest that do are told, by asking the engine of each.
#[test]
fn other_promises_are_the_weakest() {
    let wires = "input cue\ninput feed\ninput mic\noutput deck\n";
    let rules = [
        "((feed > !deck) & (!feed > deck)) U (cue & feed & mic & deck | cue & !mic & X (feed & !cue))",
        "!deck U (feed & next (feed & deck))",
        "!deck U (cue & deck)",
        "F (cue & X (cue & feed)) & F deck",
        "F cue & F !cue",
    ];
    let mut told = 0;
    for (rule, promise) in rules.iter().flat_map(|rule| PROMISES.iter().map(move |promise| (rule, promise))) {
        let case = case(&format!("{wires}promise {promise}\nrule {rule}\n"));
        if case.answer.can {
            continue;
        }
        let mut all: Vec<(Mode, Vec<bool>)> = Vec::new();
        for (fixed, value) in (0..8usize).flat_map(|fixed| (0..8usize).map(move |value| (fixed, value))) {
            let meets: Vec<bool> = (0..8).map(|x| case.meets[x] && x & fixed == value & fixed).collect();
            all.extend([Mode::Fair, Mode::Stable].map(|mode| (mode, meets.clone())));
        }
        let terms = |meets: &[bool]| (0..8).filter(|&x| meets[x]).map(minterm).collect::<Vec<_>>().join("|");
        all.retain(|(mode, meets)| {
            let question = Question { mode: *mode, condition: terms(meets), ..case.question.clone() };
            meets.contains(&true) && question.solve().unwrap().can
        });
        let weakest = all.iter().filter(|one| !all.iter().any(|other| implies(one, other) && !implies(other, one)));
        let expected: BTreeSet<(bool, &[bool])> =
            weakest.map(|(mode, meets)| (*mode == Mode::Fair, &meets[..])).collect();
        let other = asking::other(&case);
        let found = other.mode.iter().filter(|asked| asked.can).chain(&other.narrower);
        let found: Vec<(bool, &[bool])> = found.map(|asked| (asked.mode == Mode::Fair, &asked.meets[..])).collect();
        assert_eq!(found.len(), expected.len(), "{promise}: {rule}: {found:?} {expected:?}");
        assert_eq!(found.into_iter().collect::<BTreeSet<_>>(), expected, "{promise}: {rule}");
        told += expected.len();
    }
    assert!(told > 20, "{told}");
}

/// Promises for the test above.
const PROMISES: [&str; 8] = [
    "fair cue",
    "stable cue",
    "fair 1",
    "stable 1",
    "stable feed | mic",
    "fair mic",
    "fair cue | feed",
    "stable cue | !mic",
];

/// The formula that one input number alone meets.
fn minterm(x: usize) -> String {
    let literal = |j: usize| format!("{}{}", if x >> j & 1 == 1 { "" } else { "!" }, ["a", "b", "c"][j]);
    (0..3).map(literal).collect::<Vec<_>>().join("&")
}

#[test]
fn rules_kept_too_soon() {
    let cases = [
        ("G (cue > break)", Some(OddRule::KeptAtOnce)),
        ("break | !break", Some(OddRule::KeptByAll)),
        ("N cue", Some(OddRule::KeptByAll)),
        ("!break U (cue & break)", None),
        ("X break", None),
        ("F cue & G !cue", Some(OddRule::KeptByNone)),
        ("F (cue & X cue) & !cue", None),
    ];
    for (rule, soon) in cases {
        let case = small("promise fair cue", rule);
        assert_eq!(play::odd_rule(&case), soon, "{rule}");
        let page = page(&case, "name", b"", None);
        assert_eq!(page.contains("Mind this."), soon.is_some(), "{rule}");
    }
}

#[test]
fn drawings_have_the_tables_moves() {
    for (name, case) in examples() {
        let graph = play::graph(&case);
        let reached = play::reached(&case.answer);
        let drawn: Vec<usize> = graph.nodes.iter().filter(|node| !node.lost).map(|node| node.state).collect();
        assert_eq!(drawn, (0..case.answer.n).filter(|&s| reached[s]).collect::<Vec<_>>(), "{name}");
        for &from in drawn.iter().filter(|&&s| s == 0 || !case.answer.goal(s)) {
            for letter in 0..1usize << (case.answer.inputs + case.answer.outputs) {
                let (input, output) = (letter % (1 << case.answer.inputs), letter >> case.answer.inputs);
                let to = case.answer.after(from, input, output);
                let by_table = if case.answer.can {
                    case.answer.output(from, input) == output
                } else {
                    case.answer.input(from) == input
                };
                let solid = graph.arrows.iter().any(|arrow| (arrow.from, arrow.to, arrow.stray) == (from, to, false));
                assert!(solid || !by_table, "{name}: {from} to {to}");
            }
        }
    }
}

#[test]
fn sections_in_order() {
    for (name, case) in examples() {
        let page = page(&case, &name, b"", None);
        let ids: Vec<&str> = page.split("<section id=\"").skip(1).map(|rest| rest.split('"').next().unwrap()).collect();
        let losing = if case.answer.can { "" } else { "defeat others " };
        let expected = format!("question wires texts verdict table drawing simulator open {losing}assumed repeat");
        assert_eq!(ids.join(" "), expected, "{name}");
        for (k, heading) in page.split("<h2>").skip(1).enumerate() {
            assert!(heading.starts_with(&format!("{}. ", k + 1)), "{name}: {}", &heading[..20]);
        }
        for number in page.split("section ").skip(1).filter_map(|rest| rest.split(|c: char| !c.is_ascii_digit()).next())
        {
            assert!(number.is_empty() || page.contains(&format!("<h2>{number}. ")), "{name}: section {number}");
        }
    }
}

#[test]
fn theorems_are_there() {
    let mut cited = 0;
    for (name, case) in examples() {
        let page = page(&case, &name, b"", None);
        for (before, after) in
            page.match_indices("</code> in ").map(|(at, mark)| (&page[..at], &page[at + mark.len()..]))
        {
            let theorem = before.rsplit("<code>").next().unwrap();
            let Some(path) = after.trim_start().strip_prefix("<code>crates/") else { continue };
            let path = root().join("crates").join(path.split('<').next().unwrap());
            let source = fs::read_to_string(&path).unwrap_or_else(|error| panic!("{}: {error}", path.display()));
            let defines = |line: &str| line.split(' ').any(|word| word == theorem) && !line.starts_with("use ");
            assert!(source.lines().any(defines), "{name}: {theorem} in {}", path.display());
            cited += 1;
        }
    }
    assert_eq!(cited, 3 * 4 + 9 * 3 + 8);
}

/// The command that a page names works in a shell, whatever the file is called.
#[test]
fn commands_are_quoted() {
    let names = [
        ("a.station", "./airdesk a.station"),
        ("a b.station", "./airdesk 'a b.station'"),
        ("it's;rm", "./airdesk 'it'\\''s;rm'"),
        ("$x`y`", "./airdesk '$x`y`'"),
        ("-y.station", "./airdesk -- -y.station"),
        ("-", "./airdesk -o PAGE - &lt; FILE"),
    ];
    let case = small("", "F break");
    for (name, command) in names {
        let page = page(&case, name, b"", None);
        assert!(page.contains(&format!("<code>{command}</code>")), "{name}");
    }
    assert!(page(&case, "-", b"", None).contains("<h1>standard input</h1>"));
}

#[test]
fn odd_characters_are_not_shown() {
    let file = "input cue turned \u{202e} and \u{7}\noutput break\noutside the \u{2066}net\u{1b}[31m\ngoal it \u{200f}is\nrule F break\n";
    let page = page(&case(file), "odd\u{202e}.station", file.as_bytes(), None);
    assert!(!page.contains(['\u{202e}', '\u{7}', '\u{2066}', '\u{1b}', '\u{200f}']));
    assert_eq!(desk::odd::printable("a\u{202e}b\u{1b}[31mc\t\u{e9}"), "a?b?[31mc?\u{e9}");
}

/// What stands in sentences has no full stop of its own.
#[test]
fn sentences_end_once() {
    let case = case("input cue\noutput break\noutside the network.\ngoal the break has started. \nrule F break\n");
    assert_eq!(sentence(&case), "Yes. Whatever the network does, the break has started by the 1st step at the latest.");
}
