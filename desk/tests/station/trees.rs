//! Trees of formulas, beside the engine and the independent reader.

use desk::engine::{Mode, Question};
use desk::tree::{parse, Tree};
use solver::chance::Chance;
use solver::makers::{any_text, damaged, rule_text, with_blanks};
use solver::reader::read_plain;
use solver::wording::Wording;

/// The text of a tree of the independent reader, with every operand in parentheses.
fn grouped(tree: &solver::tree::Tree, node: usize) -> String {
    let node = &tree.nodes[node];
    let mark = node.mark as char;
    match node.kids[..] {
        [] => mark.into(),
        [kid] => format!("{mark}({})", grouped(tree, kid)),
        [left, right] => format!("({}){mark}({})", grouped(tree, left), grouped(tree, right)),
        _ => unreachable!("an operator has at most two operands"),
    }
}

/// A rule with i inputs and o outputs, and nothing promised.
fn question(i: usize, o: usize, rule: &str) -> Question {
    Question { inputs: i, outputs: o, mode: Mode::Fair, condition: "1".into(), rule: rule.into() }
}

#[test]
fn grouping() {
    let text = |text: &str| parse(text).map(|tree| tree.text());
    assert_eq!(text("aUbRc").as_deref(), Some("(a)U((b)R(c))"));
    assert_eq!(text("a>b>c").as_deref(), Some("(a)>((b)>(c))"));
    assert_eq!(text("!aUXb").as_deref(), Some("(!(a))U(X(b))"));
    assert_eq!(text("a>b|c&dUp").as_deref(), Some("(a)>((b)|((c)&((d)U(p))))"));
    assert_eq!(text(" GF ! N 1 ").as_deref(), Some("G(F(!(N(1))))"));
    assert_eq!(text("((a)&b)&0").as_deref(), Some("((a)&(b))&(0)"));
    for bad in ["", " ", "a b", "a&", "&a", "(a", "a)", "()", "e", "A", "a\t", "aU", "!", "2", "\u{e9}"] {
        assert_eq!(parse(bad), None, "{bad}");
    }
    assert_eq!(parse("Np"), Some(Tree::WeakNext(Box::new(Tree::Name(b'p')))));
}

/// A random text: of the grammar, or any.
fn text(chance: &mut Chance, i: usize, o: usize) -> String {
    let size = chance.between(1, 24);
    let good = rule_text(chance, i, o, size, 5);
    let text = match chance.below(4) {
        0 => good,
        1 => with_blanks(chance, good),
        2 => damaged(chance, good),
        _ => any_text(chance, i, o),
    };
    String::from_utf8_lossy(&text).into()
}

#[test]
fn beside_the_independent_reader() {
    let (mut good, mut bad) = (0, 0);
    for case in 0..100_000 {
        let mut chance = Chance::new(7, 3, case);
        let text = text(&mut chance, 4, 4);
        let expected = read_plain(text.as_bytes(), Wording::rule(4, 4)).map(|tree| grouped(&tree, tree.root));
        let tree = parse(&text);
        assert_eq!(tree.as_ref().map(Tree::text), expected, "{text}");
        good += tree.is_some() as usize;
        bad += tree.is_none() as usize;
        if let Some(tree) = tree {
            assert_eq!(parse(&tree.text()), Some(tree), "{text}");
        }
    }
    println!("good {good}, bad {bad}");
    assert!(good > 10_000 && bad > 10_000);
}

/// Compares a text that the engine accepts with the same written out in full: on random lists, and in the whole answer.
fn compare(chance: &mut Chance, question: &Question, tree: &Tree) {
    let full = Question { rule: tree.text(), ..question.clone() };
    assert!(full.rule.len() <= 3 * 64 - 2, "{}", full.rule);
    let letters = 1 << (question.inputs + question.outputs);
    for _ in 0..20 {
        let list: Vec<u8> = (0..chance.below(8)).map(|_| chance.below(letters) as u8).collect();
        assert_eq!(question.satisfied(&list), full.satisfied(&list), "{} on {list:?}", question.rule);
    }
    assert_eq!(question.solve(), full.solve(), "{}", question.rule);
}

#[test]
fn beside_the_engine() {
    let (mut accepted, mut refused) = (0, 0);
    for case in 0..10_000 {
        let mut chance = Chance::new(7, 4, case);
        let wires = chance.between(1, 4);
        let text = text(&mut chance, wires, wires);
        let question = question(4, 4, &text);
        match question.solve().map_err(|refusal| refusal.number) {
            Err(2) => {}
            Err(4) => {
                refused += 1;
                assert_eq!(parse(&text), None, "{text}");
            }
            Err(_) => assert!(parse(&text).is_some(), "{text}"),
            Ok(_) => {
                accepted += 1;
                let tree = parse(&text).unwrap_or_else(|| panic!("{text}"));
                compare(&mut chance, &question, &tree);
            }
        }
    }
    println!("accepted {accepted}, refused {refused}");
    assert!(accepted > 3000 && refused > 1000);
}
