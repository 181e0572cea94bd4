//! Every line of the specification's "Readings", the printed example and the mistakes an
//! engineer would make.

use solver::automaton::build;
use solver::calls::{game_of_given, solve_given, solve_rule, try_rule, Given, Refusal, Verdict};
use solver::conditions::met_by;
use solver::judge::judge;
use solver::listing::{airtable, buffers};
use solver::reader::read;
use solver::wording::Wording;
use solver::Mode::{self, *};
use std::fs;

/// The call for a rule, with its tables judged.
fn solve(i: usize, o: usize, mode: Mode, condition: &str, rule: &str) -> Result<Verdict, Refusal> {
    let mut space = buffers(i, o);
    let verdict = solve_rule(i, o, mode, rule.as_bytes(), condition.as_bytes(), &mut space)?;
    let mask = met_by(condition.as_bytes(), i);
    let given = Given { n: verdict.n, moves: space.moves.clone(), marks: space.marks.clone(), start: 0, mask };
    let game = game_of_given(i, o, mode, &given);
    let wins = judge(&game, 0, verdict.round, &space.station, &space.outside).unwrap();
    assert_eq!(wins, solver::game::winners(&game));
    assert_eq!(wins[0], verdict.can);
    Ok(verdict)
}

/// One reading with i = o = 1.
fn reading(mode: Mode, condition: &str, rule: &str, verdict: Verdict) {
    assert_eq!(solve(1, 1, mode, condition, rule), Ok(verdict), "{rule} {mode:?} {condition}");
}

/// "Can", with n and the round number.
const fn can(n: usize, round: usize) -> Verdict {
    Verdict { can: true, n, round }
}

/// "Cannot", with n.
const fn cannot(n: usize) -> Verdict {
    Verdict { can: false, n, round: 0 }
}

/// What a call comes to.
type Outcome = Result<Verdict, Refusal>;

/// No input number meets the condition.
const UNMET: Outcome = Err(Refusal::plain(15));

/// A reading: the rule, the mode, the condition, and what it comes to.
type Row = (String, Mode, String, Outcome);

/// The readings that the specification marks as proved, in its order.
const PROVED: [(&str, Mode, &str, Outcome); 11] = [
    ("Fp", Fair, "1", Ok(can(3, 1))),
    ("Fa", Fair, "1", Ok(cannot(3))),
    ("Fa", Fair, "a", Ok(can(3, 1))),
    ("Fa", Fair, "0", UNMET),
    ("Ga", Stable, "a", Ok(cannot(3))),
    ("F(a&Xa)", Fair, "a", Ok(cannot(4))),
    ("F(a&Xa)", Stable, "a", Ok(can(4, 2))),
    ("Xa", Fair, "1", Ok(cannot(4))),
    ("Na", Fair, "1", Ok(can(4, 1))),
    ("a&p|!a&!p", Fair, "1", Ok(can(3, 1))),
    ("pUa", Fair, "a", Ok(can(4, 1))),
];

/// Whether some rows are these: all of them, in order, each as it is.
fn are_proved(rows: &[Row]) -> bool {
    let same = |row: &Row, proved: &(&str, Mode, &str, Outcome)| (&row.0[..], row.1, &row.2[..], row.3) == *proved;
    rows.len() == PROVED.len() && rows.iter().zip(&PROVED).all(|(row, proved)| same(row, proved))
}

/// A section of the specification, as one line.
fn section(name: &str) -> String {
    let path = concat!(env!("CARGO_MANIFEST_DIR"), "/../docs/SPECIFICATION.md");
    let text = fs::read_to_string(path).unwrap();
    let (_, rest) = text.split_once(&format!("\n## {name}\n")).unwrap();
    rest.split("\n## ").next().unwrap().to_string()
}

/// A reading's words before what it comes to, and that: "cannot, 3, 0", with n and the round number, or "refused by 15".
fn outcome_of(part: &str) -> (&str, Outcome) {
    if let Some((told, number)) = part.split_once(" refused by ") {
        return (told, Err(Refusal::plain(number.parse().unwrap())));
    }
    let [told, n, round] = part.split(", ").collect::<Vec<_>>()[..] else { panic!("{part}") };
    let (told, verdict) = told.rsplit_once(' ').unwrap();
    let can = [("can", true), ("cannot", false)].iter().find(|(word, _)| *word == verdict).unwrap().1;
    (told, Ok(Verdict { can, n: n.parse().unwrap(), round: round.parse().unwrap() }))
}

/// The readings of a text such as "`Fa` cannot, 3, 0; fair `a` can, 3, 1; fair `0` refused by 15. `Xa` cannot, 4, 0.": the rule
/// stands before its first reading, and where no mode and condition are named they are fair and `1`.
fn readings_of(text: &str) -> Vec<Row> {
    let mut rows: Vec<Row> = Vec::new();
    for part in text.trim().trim_end_matches('.').split(['.', ';']).map(str::trim) {
        let (told, outcome) = outcome_of(part);
        let words: Vec<&str> = told.split(' ').collect();
        let quoted = |word: &str| word.strip_prefix('`').and_then(|word| word.strip_suffix('`')).map(str::to_string);
        let first = words.first().and_then(|word| quoted(word));
        let rule = first.clone().unwrap_or_else(|| rows.last().unwrap().0.clone());
        let (mode, condition) = match &words[usize::from(first.is_some())..] {
            [] => (Fair, "1".to_string()),
            ["fair", condition] => (Fair, quoted(condition).unwrap()),
            ["stable", condition] => (Stable, quoted(condition).unwrap()),
            _ => panic!("{part}"),
        };
        rows.push((rule, mode, condition, outcome));
    }
    rows
}

#[test]
fn the_specification_has_the_proved_readings() {
    let text = section("Readings").replace('\n', " ");
    let (_, rest) = text.split_once(" the verdict, n and r, or the refusal: ").unwrap();
    let (proved, _) = rest.split_once(" These are proved.").unwrap();
    assert!(are_proved(&readings_of(proved)), "{proved}");
    for (old, new) in [("refused by 15", "can, 3, 1"), ("refused by 15", "refused by 9"), ("fair `0`", "stable `0`")] {
        assert!(!are_proved(&readings_of(&proved.replace(old, new))), "{new}");
    }
}

#[test]
fn proved_readings() {
    for (rule, mode, condition, outcome) in PROVED {
        assert_eq!(solve(1, 1, mode, condition, rule), outcome, "{rule} {mode:?} {condition}");
    }
}

/// Where the theorems of the proved readings and of the printed example are stated.
const SPECS: &str = concat!(env!("CARGO_MANIFEST_DIR"), "/../crates/readings/specs");

/// One of the files there.
fn specs(file: &str) -> String {
    fs::read_to_string(format!("{SPECS}/{file}")).unwrap()
}

/// The lines of a definition, which goes up to an empty line, without its comments.
fn definition<'a>(source: &'a str, name: &str) -> Vec<&'a str> {
    let (_, rest) = source.split_once(&format!("\n{name} =\n")).unwrap();
    let lines = rest.lines().map(str::trim).take_while(|line| !line.is_empty());
    lines.filter(|line| !line.starts_with("--")).collect()
}

/// The text of a list of bytes, written as in `70 ∷ 112 ∷ []`.
fn text_of(list: &str) -> String {
    let bytes = list.strip_suffix("[]").unwrap().split_terminator(" ∷ ");
    bytes.map(|byte| char::from(byte.parse::<u8>().unwrap())).collect()
}

/// A row as the theorem has it: `row (70 ∷ 112 ∷ []) Fair (49 ∷ []) 3 1`, of which the last number, the round number, says
/// whether the station can, or `unmet (70 ∷ 97 ∷ []) Fair (48 ∷ [])`.
fn row_of(line: &str) -> Row {
    let (word, rest) = line.split_once(" (").unwrap();
    let (rule, rest) = rest.split_once(") ").unwrap();
    let (mode, rest) = rest.split_once(" (").unwrap();
    let (condition, rest) = rest.split_once(')').unwrap();
    let numbers: Vec<usize> = rest.split_whitespace().map(|number| number.parse().unwrap()).collect();
    let outcome = match (word, &numbers[..]) {
        ("row", &[n, round]) => Ok(Verdict { can: round > 0, n, round }),
        ("unmet", []) => UNMET,
        _ => panic!("{line}"),
    };
    let mode = [("Fair", Fair), ("Stable", Stable)].iter().find(|(word, _)| *word == mode).unwrap().1;
    (text_of(rule), mode, text_of(condition), outcome)
}

/// The lines of the theorem's rows, in order, and nothing beside them.
fn row_lines(source: &str) -> Vec<&str> {
    let lines = definition(source, "rows");
    let mut lines: Vec<&str> = lines.iter().map(|line| line.strip_prefix("∷ ").unwrap_or(line)).collect();
    assert_eq!(lines.pop(), Some("[]"));
    lines
}

/// Whether these lines are the specification's rows.
fn have_proved(lines: &[&str]) -> bool {
    are_proved(&lines.iter().map(|line| row_of(line)).collect::<Vec<_>>())
}

/// The row with the other outcome: refused by 15, or n and the round number.
fn other_outcome(line: &str) -> String {
    match line.strip_prefix("unmet ") {
        Some(rest) => format!("row {rest} 3 1"),
        None => format!("{})", line.replacen("row", "unmet", 1).rsplit_once(')').unwrap().0),
    }
}

/// Each way to change one word of a row: the other mode, or a number one higher; and the other outcome.
fn changes(line: &str) -> Vec<String> {
    let words: Vec<&str> = line.split(' ').collect();
    let other = |word: &str| match word {
        "Fair" => Some("Stable".into()),
        "Stable" => Some("Fair".into()),
        _ => {
            let number = word.trim_start_matches('(');
            number.parse::<u8>().ok().map(|byte| word.replace(number, &(byte + 1).to_string()))
        }
    };
    let changed =
        |k: usize| other(words[k]).map(|word: String| [&words[..k], &[&word[..]], &words[k + 1..]].concat().join(" "));
    (0..words.len()).filter_map(changed).chain([other_outcome(line)]).collect()
}

/// What the words of a row stand for.
const ROW: [&str; 5] = [
    "row rule mode condition n round = decided (row_of 1 1 rule mode condition n round)",
    "unmet rule mode condition = unsatisfiable 1 1 rule mode condition",
    "LineHolds (decided r) = RowHolds r",
    "LineHolds (unsatisfiable i o rule mode condition) = Unmet i o rule condition",
    "row_of i o rule mode condition n round = record { inputs = i; outputs = o; rule = rule; mode = mode; condition = condition; count = n; round = round }",
];

#[test]
fn the_theorem_has_the_proved_readings() {
    let source = specs("Rows.antt");
    let lines = row_lines(&source);
    assert!(have_proved(&lines));
    let reading = specs("Row.antt");
    assert!(
        ROW.iter().all(|line| reading.lines().any(|found| found == *line)),
        "the words of a row stand for something else"
    );
    for k in 0..lines.len() {
        let mut fewer = lines.clone();
        fewer.remove(k);
        assert!(!have_proved(&fewer), "without {}", lines[k]);
        for other in k + 1..lines.len() {
            let mut swapped = lines.clone();
            swapped.swap(k, other);
            assert!(!have_proved(&swapped), "{} for {}", lines[other], lines[k]);
        }
        let changes = changes(lines[k]);
        assert!(changes.len() > 4);
        for change in changes {
            let mut changed = lines.clone();
            changed[k] = &change;
            assert!(!have_proved(&changed), "{change} for {}", lines[k]);
        }
    }
}

#[test]
fn run_readings() {
    assert!(solve(1, 1, Fair, "1", "XXXXXa").is_ok());
    assert_eq!(solve(1, 1, Fair, "1", "XXXXXXa"), Err(Refusal::plain(6)));
    assert_eq!(solve(1, 1, Fair, "1", ""), Err(Refusal::placed(4, 0)));
    let rule = "F((a|Gp)&(b|Gq)&(c|Gr)&(d|Gs))";
    assert_eq!(solve(4, 4, Fair, "1", rule), Err(Refusal::plain(9)));
    let tree = read(rule.as_bytes(), Wording::rule(4, 4)).unwrap();
    assert_eq!(build(&tree, 4, 4, 100_000).unwrap().n(), 169);
}

#[test]
fn a_rule_with_128_states_is_served() {
    let rule = "((Gp|a)&(a>c))U((b|Gq)&(c|Gr)&(r|Gs))";
    assert_eq!(solve(4, 4, Fair, "1", rule).unwrap().n, 128);
}

/// The specification's printed example: the four lines, and the listing.
const EXAMPLE: (&str, &str) = ("1 0\nfair\n1\nFa\n", "cannot 3 0\n0 - O 0\n1 - O 0\n2 * S 0 0\n");

#[test]
fn printed_example() {
    let text = airtable(EXAMPLE.0.as_bytes());
    assert_eq!(String::from_utf8(text).unwrap(), EXAMPLE.1);
}

#[test]
fn the_specification_has_the_printed_example() {
    let text = section("Program");
    let (lines, listing) =
        text.split_once("\nin byte order").and_then(|(_, rest)| rest.split_once(" it prints\n\n")).unwrap();
    let input: String = lines
        .rsplit_once(" On ")
        .unwrap()
        .1
        .split(", ")
        .map(|line| line.trim_matches('`').to_string() + "\n")
        .collect();
    let listing: String =
        listing.lines().map_while(|line| line.strip_prefix("    ")).map(|line| line.to_string() + "\n").collect();
    assert_eq!((&input[..], &listing[..]), EXAMPLE);
}

#[test]
fn the_theorem_has_the_printed_example() {
    let source = specs("Example.antt");
    let text = |name| text_of(&definition(&source, name).join(" "));
    assert_eq!((&text("example_input")[..], &text("example_listing")[..]), EXAMPLE);
}

#[test]
fn mistake_strong_next_at_the_last_letter() {
    assert_eq!(try_rule(1, 1, b"Xa", &[1]), Ok(false));
    assert_eq!(try_rule(1, 1, b"Na", &[0]), Ok(true));
    assert_eq!(try_rule(1, 1, b"Xa", &[0, 1]), Ok(true));
    assert_eq!(try_rule(1, 1, b"Na", &[1, 0]), Ok(false));
    assert_eq!(try_rule(1, 1, b"XX1", &[1, 0]), Ok(false));
    assert_eq!(try_rule(1, 1, b"NX1", &[1, 0]), Ok(false));
    assert_eq!(try_rule(1, 1, b"X1", &[]), Ok(false));
    assert_eq!(try_rule(1, 1, b"N1", &[]), Ok(false));
}

#[test]
fn mistake_marked_start_taken_as_won() {
    // State 0 is marked but every step leads to state 1, which is not and stays.
    let given = Given { n: 2, moves: vec![1; 8], marks: vec![1, 0], start: 0, mask: 3 };
    let (mut station, mut outside) = (vec![7; 4], vec![7; 2]);
    assert_eq!(solve_given(1, 1, Fair, &given, &mut station, &mut outside), Ok(cannot(2)));
    // State 0 is marked and entered again: now it counts.
    let given = Given { n: 1, moves: vec![0; 4], marks: vec![9], start: 0, mask: 3 };
    assert_eq!(solve_given(1, 1, Fair, &given, &mut station, &mut outside), Ok(can(1, 1)));
}

#[test]
fn mistake_station_answers_before_the_input() {
    reading(Fair, "1", "a&p|!a&!p", can(3, 1));
    reading(Stable, "1", "G(a&p|!a&!p)", can(3, 1));
}

#[test]
fn mistake_fair_read_as_stable() {
    assert_ne!(solve(1, 1, Fair, "a", "F(a&Xa)"), solve(1, 1, Stable, "a", "F(a&Xa)"));
}

#[test]
fn mistake_steps_counted_from_one_to_the_goal_not_before_it() {
    // The goal may be entered by the r-th step itself: one, two and three steps with a.
    reading(Fair, "a", "Fa", can(3, 1));
    reading(Fair, "a", "F(a&XFa)", can(5, 2));
    reading(Fair, "a", "F(a&XF(a&XFa))", can(7, 3));
    reading(Stable, "a", "F(a&X(a&Xa))", can(5, 3));
}

#[test]
fn mistake_all_steps_counted_when_stable() {
    // Two steps with a in a row satisfy the rule, and so do any three.
    reading(Fair, "a", "F(a&X(a|F(a&XFa)))", can(7, 3));
    reading(Stable, "a", "F(a&X(a|F(a&XFa)))", can(7, 2));
}

#[test]
fn mistake_table_that_takes_as_long_as_n_allows() {
    // By p in the first step the rule asks for two steps with a in a row, by !p for three; both are fewer than n.
    let rule = "!p&F(a&X(a&Xa))|p&F(a&Xa)";
    reading(Stable, "a", rule, can(7, 2));
    let listing = airtable(format!("1 1\nstable\na\n{rule}\n").as_bytes());
    assert!(listing.starts_with(b"can 7 2\n0 - S 1 1\n"), "{}", listing.escape_ascii());
}

#[test]
fn program_refusals() {
    let told = |bytes: &[u8]| String::from_utf8(airtable(bytes)).unwrap();
    assert_eq!(told(b""), "refused 14 0\n");
    assert_eq!(told(b"1 0\nfair\n1\nFa"), "refused 14 0\n");
    assert_eq!(told(b"1 0\nfair\n1\nFa\n\n"), "refused 14 0\n");
    assert_eq!(told(b"1  0\nfair\n1\nFa\n"), "refused 14 0\n");
    assert_eq!(told(b"1 0\nFair\n1\nFa\n"), "refused 14 0\n");
    assert_eq!(told(b"9 0\nfair\n1\nFa\n"), "refused 1 0\n");
    assert_eq!(told(b"1 0\nfair\n1\n\n"), "refused 4 0\n");
    assert_eq!(told(b"1 0\nfair\n\nFa\n"), "refused 7 0\n");
    assert_eq!(told(b"1 0\nfair\n1 \r\nFa\n"), "refused 7 2\n");
    assert_eq!(told(b"1 0\nfair\n1\nF(a&p\n"), "refused 4 4\n");
    assert_eq!(told(b"1 0\nfair\na&!a\nFa\n"), "refused 15 0\n");
    assert_eq!(told(b"0 0\nstable\n0\n1\n"), "refused 15 0\n");
    assert_eq!(told(b"0 0\nstable\n1\n1\n"), "can 2 1\n0 - S 0\n1 * S 0\n");
    assert_eq!(told(b"1 0\nfair\na&!a\nF(\n"), "refused 4 2\n");
    let mut long = b"1 0\nfair\n1\n".to_vec();
    long.resize(2047, b' ');
    long.push(b'\n');
    assert_eq!(told(&long), "refused 2 0\n");
    long.insert(11, b' ');
    assert_eq!(told(&long), "refused 14 0\n");
}
