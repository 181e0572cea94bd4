//! Random files: the translation and the places of the engine's refusals, and damaged files.

use crate::writer::{written, Written};
use desk::case::Case;
use desk::engine::{Mode, Question, Refusal};
use desk::station::{read, Station, Token};
use solver::chance::Chance;
use solver::makers::{any_condition, any_text, damaged, good_condition, rich_rule, rule_text};

/// The bytes of a text that can be written with the names of i inputs and o outputs.
fn writable(text: Vec<u8>, i: usize, o: usize) -> String {
    let good =
        |byte: &u8| b"01!XNFGUR&|>()".contains(byte) || b"abcd"[..i].contains(byte) || b"pqrs"[..o].contains(byte);
    text.into_iter().filter(good).map(char::from).collect()
}

/// A random rule: of the grammar, damaged, near or over a limit, or with many states.
fn any_rule(chance: &mut Chance, i: usize, o: usize) -> Vec<u8> {
    let size = chance.between(1, 20);
    match chance.below(12) {
        0..=4 => rule_text(chance, i, o, size, 5),
        5..=7 => {
            let text = rule_text(chance, i, o, size, 5);
            damaged(chance, text)
        }
        8 if i + o == 8 => b"F((a|Gp)&(b|Gq)&(c|Gr)&(d|Gs))".to_vec(),
        8 if i + o > 0 => rich_rule(chance, i, o),
        9 if chance.one_in(8) => vec![b'!'; chance.between(240, 270)],
        _ => any_text(chance, i, o),
    }
}

/// A random question; its texts have at least one mark.
fn question(chance: &mut Chance) -> Question {
    let (i, o) = (chance.pick(&[0, 1, 2, 3, 4, 4]), chance.pick(&[0, 1, 2, 3, 4, 4]));
    let mode = chance.pick(&[Mode::Fair, Mode::Stable]);
    loop {
        let rule = any_rule(chance, i, o);
        let condition = match chance.below(8) {
            0 => any_condition(chance, i),
            1 if chance.one_in(8) => vec![b'('; chance.between(240, 270)],
            1 => any_text(chance, i, o),
            2 => {
                let text = good_condition(chance, i);
                damaged(chance, text)
            }
            3 | 4 => b"1".to_vec(),
            _ => good_condition(chance, i),
        };
        let (rule, condition) = (writable(rule, i, o), writable(condition, i, o));
        if !rule.is_empty() && !condition.is_empty() {
            return Question { inputs: i, outputs: o, mode, condition, rule };
        }
    }
}

/// Compares a station with what was written.
fn compare(station: &Station, expected: &Written, question: &Question) {
    let file = &expected.file;
    assert_eq!(&station.question(), question, "{file}");
    assert_eq!((&station.title, &station.outside), (&expected.title, &expected.outside), "{file}");
    assert_eq!((&station.inputs, &station.outputs), (&expected.inputs, &expected.outputs), "{file}");
    assert_eq!((&station.goal, station.mode), (&expected.goal, question.mode), "{file}");
    assert_eq!((&station.promise, station.promise_end), (&expected.promise.0, expected.promise.1), "{file}");
    assert_eq!((&station.rule, station.rule_end), (&expected.rule.0, expected.rule.1), "{file}");
    let place = |token: &Token| (token.line, token.column);
    assert_eq!((station.promise_at, station.rule_at), (place(&expected.promise.0[0]), place(&expected.rule.0[0])));
}

/// Where a refusal has to be told.
fn place(refusal: Refusal, expected: &Written) -> (usize, usize) {
    let (rule, promise) = (&expected.rule, &expected.promise);
    let temporal = rule.0.iter().filter(|token| b"XNFGUR".contains(&token.byte)).nth(5);
    let token = match refusal.number {
        4 => rule.0.get(refusal.place),
        7 => promise.0.get(refusal.place),
        2 if rule.0.len() <= 255 => promise.0.first(),
        6 => temporal,
        8 | 15 => promise.0.first(),
        _ => rule.0.first(),
    };
    token.map_or(if refusal.number == 4 { rule.1 } else { promise.1 }, |token| (token.line, token.column))
}

#[test]
fn random_files() {
    let mut counts = [0; 16];
    for case in 0..20_000 {
        let mut chance = Chance::new(7, 1, case);
        let question = question(&mut chance);
        let expected = written(&mut chance, &question);
        let file = expected.file.as_bytes();
        let station = read(file).unwrap_or_else(|fault| panic!("{}\n{}", fault.shown("x", file), expected.file));
        compare(&station, &expected, &question);
        let answer = question.solve();
        match (answer, Case::of(file)) {
            (Ok(answer), Ok(case)) => assert_eq!(answer, case.answer),
            (Err(refusal), Err(fault)) => {
                assert_eq!(
                    (fault.line, fault.column),
                    place(refusal, &expected),
                    "{refusal:?} {fault:?}\n{}",
                    expected.file
                );
                counts[refusal.number as usize] += 1;
            }
            (answer, case) => panic!("{answer:?} {case:?}\n{}", expected.file),
        }
    }
    println!("refusals {counts:?}");
    for number in [2, 4, 5, 6, 7, 8, 9, 15] {
        assert!(counts[number] >= 20, "refusal {number}: {counts:?}");
    }
}

/// Damages a file: bytes changed, put in or taken out, lines taken out or doubled.
fn damaged_file(chance: &mut Chance, file: &str) -> Vec<u8> {
    let mut file = file.as_bytes().to_vec();
    for _ in 0..chance.between(1, 4) {
        let at = chance.below(file.len().max(1)).min(file.len().saturating_sub(1));
        let byte = if chance.one_in(3) { chance.byte() } else { chance.pick(b"\n\r\t #-_aXU&|>()!10u\x1b") };
        match chance.below(5) {
            0 if !file.is_empty() => file[at] = byte,
            1 => file.insert(at, byte),
            2 if !file.is_empty() => drop(file.remove(at)),
            3 => file.truncate(at),
            _ => {
                let line: Vec<u8> = file[at..].iter().copied().take(chance.between(1, 40)).collect();
                file.splice(at..at, line);
            }
        }
    }
    file
}

#[test]
fn damaged_files() {
    let (mut read_ones, mut faults) = (0, 0);
    for case in 0..20_000 {
        let mut chance = Chance::new(7, 2, case);
        let question = question(&mut chance);
        let file = written(&mut chance, &question).file;
        let file = damaged_file(&mut chance, &file);
        let text = String::from_utf8_lossy(&file);
        let text = text.strip_prefix('\u{feff}').unwrap_or(&text);
        let Err(fault) = read(&file) else {
            read_ones += 1;
            continue;
        };
        faults += 1;
        let line = text.lines().nth(fault.line - 1);
        assert!(fault.line == 1 || line.is_some(), "{fault:?}\n{text}");
        assert!((1..=line.unwrap_or_default().chars().count() + 1).contains(&fault.column), "{fault:?}\n{text}");
        let shown = fault.shown("x", &file);
        assert!(shown.ends_with("^\n") && shown.lines().count() == 3, "{shown}");
        assert!(shown.chars().all(|c| c == '\n' || !c.is_control()), "{shown:?}");
        assert!(shown.lines().skip(1).all(|line| line.chars().count() <= 78), "{shown:?}");
    }
    println!("read {read_ones}, faults {faults}");
    assert!(read_ones > 1000 && faults > 1000);
}
