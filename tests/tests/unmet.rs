//! Refusal 15: a condition that no input number meets, in many texts; its place in the order of both solving calls; masks;
//! and the makers of such conditions.

use solver::calls::*;
use solver::chance::Chance;
use solver::conditions::{met_by, met_once, unmet_condition};
use solver::large::LARGE;
use solver::listing::buffers;
use solver::makers::{good_condition, rule_text};
use solver::meaning::satisfies;
use solver::reader::read;
use solver::wording::Wording;
use solver::Mode::*;
use std::collections::{BTreeMap, BTreeSet};

/// What a rule is refused with, in both modes and with buffers for no states, for one and for 128; they stay as they were.
fn refused(i: usize, o: usize, rule: &[u8], condition: &[u8]) -> Refusal {
    let mut refusals = vec![];
    for mode in [Fair, Stable] {
        for n in [0, 1, 128] {
            let lent = Buffers::filled(shares(i.min(4), o.min(4), n), 7);
            let mut after = lent.clone();
            refusals.push(solve_rule(i, o, mode, rule, condition, &mut after).unwrap_err());
            assert_eq!(after, lent, "buffers were touched");
        }
    }
    assert!(refusals.iter().all(|refusal| *refusal == refusals[0]), "{refusals:?}");
    refusals[0]
}

/// A refusal without a place.
fn plain(number: u8) -> Refusal {
    Refusal::plain(number)
}

/// Texts that no input number meets; the number of inputs is the least with which they are conditions.
const UNMET: [(usize, &[u8]); 22] = [
    (0, b"0"),
    (0, b" ( ( 0)) "),
    (0, b"!1"),
    (0, b"!!0"),
    (0, b"1>0"),
    (0, b"1&0"),
    (0, b"0|!1"),
    (1, b"a&!a"),
    (1, b"!a&a"),
    (1, b"!(a>a)"),
    (1, b"!(a|!a)"),
    (1, b"a&(a>0)"),
    (1, b"(a>!a)&(!a>a)"),
    (2, b"(a|b)&!a&!b"),
    (2, b"!a&(b>0)&b"),
    (2, b"(a|b)&(a|!b)&(!a|b)&(!a|!b)"),
    (2, b"!(a&b)&!(a&!b)&!(!a&b)&!(!a&!b)"),
    (2, b"a&!a|b&!b"),
    (3, b"(a>b)&(b>c)&a&!c"),
    (3, b"!(a|b>c>a|b)"),
    (4, b"a&(a>b)&(b>c)&(c>d)&!d"),
    (4, b"!(a&b&c&d>d)"),
];

/// Texts near to these, which some input number meets.
const MET: [(usize, &[u8]); 12] = [
    (0, b"1"),
    (0, b"!0"),
    (0, b"0>0"),
    (0, b"0|1"),
    (1, b"a"),
    (1, b"!a"),
    (1, b"a>!a"),
    (2, b"(a|b)&!a&b"),
    (2, b"(a|b)&(a|!b)&(!a|b)"),
    (3, b"(a>b)&(b>c)&a&c"),
    (4, b"a&(a>b)&(b>c)&(c>d)&d"),
    (4, b"!a&!b&!c&!d"),
];

#[test]
fn conditions_that_no_input_meets() {
    for (least, text) in UNMET {
        for i in least..=4 {
            assert_eq!(refused(i, 1, b"Fp", text), plain(15), "{} with {i} inputs", text.escape_ascii());
        }
    }
}

#[test]
fn conditions_that_some_input_meets() {
    for (least, text) in MET {
        for i in least..=4 {
            let answer = solve_rule(i, 1, Fair, b"Fp", text, &mut buffers(i, 1));
            assert_eq!(answer, Ok(Verdict { can: true, n: 3, round: 1 }), "{} with {i} inputs", text.escape_ascii());
        }
    }
}

#[test]
fn earlier_refusals_of_a_rule_come_first() {
    let long = [b'1'; 256];
    let mut wide = b"a&!a".to_vec();
    wide.resize(256, b' ');
    let thick = |count: usize, last: u8| [vec![b'!'; count], vec![last]].concat();
    assert_eq!(refused(5, 1, b"Fp", b"0"), plain(1));
    assert_eq!(refused(1, usize::MAX, b"Fp", b"0"), plain(1));
    assert_eq!(refused(1, 1, &long, b"0"), plain(2));
    assert_eq!(refused(1, 1, b"Fp", &wide), plain(2));
    assert_eq!(refused(1, 1, b"Fp", &wide[..255]), plain(15));
    assert_eq!(refused(1, 1, b"1&", b"0"), Refusal::placed(4, 2));
    assert_eq!(refused(1, 1, b"", b"0"), Refusal::placed(4, 0));
    assert_eq!(refused(1, 1, &thick(64, b'1'), b"0"), plain(5));
    assert_eq!(refused(1, 1, b"XXXXXXa", b"0"), plain(6));
    for (text, place) in [(&b"a&!a&"[..], 5), (b"0 0", 2), (b"p&!p", 0), (b"X0", 0), (b"0)", 1), (b"b&!b", 0)] {
        assert_eq!(refused(1, 1, b"Fp", text), Refusal::placed(7, place), "{}", text.escape_ascii());
    }
    // 65 nodes are too many; 64 are not.
    assert_eq!(refused(1, 1, b"Fp", &thick(64, b'0')), plain(8));
    assert_eq!(refused(1, 1, b"Fp", &thick(63, b'1')), plain(15));
}

#[test]
fn too_many_states_and_short_buffers_come_later() {
    for &(n, i, o, rule) in LARGE {
        for condition in [&b"0"[..], b"a&!a", b"(a|b)&!a&!b"] {
            assert_eq!(refused(i, o, rule, condition), plain(15));
        }
        let asked = solve_rule(i, o, Fair, rule, b"1", &mut Buffers::default());
        assert_eq!(asked, Err(if n > 128 { plain(9) } else { Refusal::short(n) }));
    }
    // A call that lends nothing is not told n.
    assert_eq!(refused(1, 1, b"Fp", b"0").needed, None);
    let exact = shares(1, 1, 3);
    for k in 0..4 {
        let mut lengths = exact;
        lengths[k] -= 1;
        let mut space = Buffers::filled(lengths, 7);
        assert_eq!(solve_rule(1, 1, Fair, b"Fp", b"!1", &mut space), Err(plain(15)));
        assert_eq!(solve_rule(1, 1, Fair, b"Fp", b"1", &mut space), Err(Refusal::short(3)));
    }
}

#[test]
fn no_inputs_at_all() {
    // The one input number is 0.
    for mode in [Fair, Stable] {
        let answer = solve_rule(0, 1, mode, b"Fp", b"1", &mut buffers(0, 1));
        assert_eq!(answer, Ok(Verdict { can: true, n: 3, round: 1 }));
    }
    assert_eq!(refused(0, 1, b"Fp", b"0"), plain(15));
    assert_eq!(refused(0, 0, b"1", b"0"), plain(15));
    let given = |mask| Given { n: 1, moves: vec![0], marks: vec![1], start: 0, mask };
    let answers = [1, 0, 2].map(|mask| solve_given(0, 0, Fair, &given(mask), &mut [7], &mut [7]));
    assert_eq!(answers, [Ok(Verdict { can: true, n: 1, round: 1 }), Err(plain(15)), Err(plain(13))]);
}

/// The call for a given automaton with i = o = 1 and so many bytes of both tables; refused, it leaves them as they were.
fn given_answer(i: usize, given: &Given, station: usize, outside: usize) -> Result<Verdict, Refusal> {
    let (mut left, mut right) = (vec![7; station], vec![7; outside]);
    let answer = solve_given(i, 1, Fair, given, &mut left, &mut right);
    assert!(answer.is_ok() || (left, right) == (vec![7; station], vec![7; outside]), "buffers were touched");
    answer
}

#[test]
fn earlier_refusals_of_a_given_automaton_come_first() {
    let unmet = || Given { n: 2, moves: vec![0; 8], marks: vec![0, 1], start: 1, mask: 0 };
    assert_eq!(given_answer(1, &unmet(), 4, 2), Err(plain(15)));
    assert_eq!(given_answer(5, &unmet(), 4, 2), Err(plain(1)));
    for n in [0, 129, usize::MAX] {
        assert_eq!(given_answer(1, &Given { n, ..unmet() }, 4, 2), Err(plain(10)));
    }
    let short = [
        given_answer(1, &Given { moves: vec![0; 7], ..unmet() }, 4, 2),
        given_answer(1, &Given { marks: vec![0], ..unmet() }, 4, 2),
        given_answer(1, &unmet(), 3, 2),
        given_answer(1, &unmet(), 4, 1),
        given_answer(1, &unmet(), 0, 0),
    ];
    assert_eq!(short, [Err(Refusal::short(2)); 5]);
    assert_eq!(given_answer(1, &Given { start: 2, ..unmet() }, 4, 2), Err(plain(12)));
    let moves = vec![0, 1, 0, 1, 0, 2, 0, 9];
    assert_eq!(given_answer(1, &Given { moves, ..unmet() }, 4, 2), Err(Refusal::placed(11, 5)));
    assert_eq!(given_answer(1, &Given { mask: 4, ..unmet() }, 4, 2), Err(plain(13)));
    assert_eq!(given_answer(1, &Given { mask: 2, ..unmet() }, 4, 2), Ok(Verdict { can: false, n: 2, round: 0 }));
}

#[test]
fn every_mask() {
    for i in 0..=4 {
        let given = |mask| Given { n: 1, moves: vec![0; 2 << i], marks: vec![1], start: 0, mask };
        for mask in 0..=u16::MAX {
            let wanted = match (mask, 1u32 << (1 << i)) {
                (0, _) => Err(plain(15)),
                (_, bound) if mask as u32 >= bound => Err(plain(13)),
                _ => Ok(Verdict { can: true, n: 1, round: 1 }),
            };
            assert_eq!(given_answer(i, &given(mask), 1 << i, 1), wanted, "i {i}, mask {mask:#06x}");
        }
    }
}

#[test]
fn unmet_is_that_no_list_of_one_letter_satisfies_it() {
    let mut chance = Chance::new(21, 0, 0);
    let mut counts = [0, 0];
    for _ in 0..4_000 {
        let i = chance.below(5);
        let size = chance.between(1, 20);
        let text = rule_text(&mut chance, i, 0, size, 0);
        let tree = read(&text, Wording::condition(i)).unwrap();
        let unmet = (0..1u8 << i).all(|x| !satisfies(&tree, i, &[x]));
        let answer = solve_rule(i, 1, Fair, b"Fp", &text, &mut buffers(i, 1));
        assert_eq!(answer == Err(plain(15)), unmet, "{}", text.escape_ascii());
        assert_eq!(answer.is_ok(), !unmet);
        counts[unmet as usize] += 1;
    }
    assert!(counts.iter().all(|&count| count > 400), "{counts:?}");
}

#[test]
fn makers_of_conditions() {
    let mut chance = Chance::new(22, 0, 0);
    let mut numbers = BTreeMap::new();
    let mut texts = BTreeSet::new();
    for _ in 0..6_000 {
        let i = chance.below(5);
        let (unmet, once, good) =
            (unmet_condition(&mut chance, i), met_once(&mut chance, i), good_condition(&mut chance, i));
        assert!(read(&unmet, Wording::condition(i)).is_ok(), "{}", unmet.escape_ascii());
        assert_eq!(met_by(&unmet, i), 0, "{}", unmet.escape_ascii());
        assert_eq!(met_by(&once, i).count_ones(), 1, "{}", once.escape_ascii());
        assert_ne!(met_by(&good, i), 0, "{}", good.escape_ascii());
        let refusal = solve_rule(i, 0, Fair, b"1", &unmet, &mut Buffers::default()).unwrap_err();
        *numbers.entry(refusal.number).or_insert(0) += 1;
        texts.insert(unmet);
    }
    assert!(numbers[&15] > 5_000 && numbers.keys().all(|number| [2, 8, 15].contains(number)), "{numbers:?}");
    assert!(texts.len() > 3_000, "{}", texts.len());
}
