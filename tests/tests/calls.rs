//! The calls: every refusal number, their order when several apply, the buffers after,
//! and the follower.

use solver::automaton::build;
use solver::calls::*;
use solver::large::LARGE;
use solver::listing::buffers;
use solver::reader::read;
use solver::wording::Wording;
use solver::Mode::*;

/// A refusal without a place.
fn plain<T>(number: u8) -> Result<T, Refusal> {
    Err(Refusal::plain(number))
}

/// A refusal with a place.
fn placed<T>(number: u8, place: usize) -> Result<T, Refusal> {
    Err(Refusal::placed(number, place))
}

/// Refusal 3, with the states that the buffers need room for.
fn short<T>(needed: usize) -> Result<T, Refusal> {
    Err(Refusal::short(needed))
}

/// Buffers of a length each, filled with 7.
fn filled(lengths: [usize; 4]) -> Buffers {
    Buffers::filled(lengths, 7)
}

/// The call for a rule that is refused, in the fair mode, with buffers of a length each; it leaves them as they were.
fn refused(i: usize, o: usize, rule: &[u8], condition: &[u8], lengths: [usize; 4]) -> Result<Verdict, Refusal> {
    let mut space = filled(lengths);
    let answer = solve_rule(i, o, Fair, rule, condition, &mut space);
    assert!(answer.is_err(), "{answer:?}");
    assert_eq!(space, filled(lengths), "buffers were touched");
    answer
}

/// A rule with 169 states, for i = o = 4.
const MANY: &[u8] = b"F((a|Gp)&(b|Gq)&(c|Gr)&(d|Gs))";

/// `Fp` with i = o = 1 has 3 states: the start, 1 without p so far, 2 with p.
const EXACT: [usize; 4] = [12, 3, 6, 3];

#[test]
fn rule_order() {
    let long = vec![b'&'; 256];
    let chain = [vec![b'X'; 70], vec![b'1']].concat();
    let thick = [vec![b'!'; 70], vec![b'1']].concat();
    for lengths in [[0; 4], [1; 4], EXACT, [512, 128, 256, 128]] {
        let ask = |i, o, rule: &[u8], condition: &[u8]| refused(i, o, rule, condition, lengths);
        assert_eq!(ask(5, 1, &long, b""), plain(1));
        assert_eq!(ask(1, usize::MAX, &long, b""), plain(1));
        assert_eq!(ask(1, 1, &long, b""), plain(2));
        assert_eq!(ask(1, 1, b"", &long), plain(2));
        assert_eq!(ask(1, 1, b"1&", b""), placed(4, 2));
        assert_eq!(ask(1, 1, &chain, b""), plain(5));
        assert_eq!(ask(1, 1, &chain[60..], b""), plain(6));
        assert_eq!(ask(1, 1, b"1", b"a &"), placed(7, 3));
        assert_eq!(ask(1, 1, b"1", &thick), plain(8));
        assert_eq!(ask(4, 4, MANY, b"a &"), placed(7, 3));
        assert_eq!(ask(4, 4, MANY, &thick), plain(8));
        assert_eq!(ask(4, 4, MANY, b"a&!a"), plain(15));
        assert_eq!(ask(1, 1, b"Fp", b"0"), plain(15));
        assert_eq!(ask(4, 4, MANY, b"1"), plain(9));
    }
    assert_eq!(refused(1, 1, b"Fp", b"1", [0; 4]), short(3));
}

#[test]
fn rule_with_too_many_states_touches_nothing() {
    for n in [0, 1, 127, 128, 129, 169, 200] {
        assert_eq!(refused(4, 4, MANY, b"1", shares(4, 4, n)), plain(9), "buffers for {n} states");
    }
    for &(_, i, o, rule) in LARGE.iter().filter(|row| row.0 > 128) {
        for lengths in [[0; 4], [1; 4], shares(i, o, 128), shares(i, o, 128).map(|length| length + 3)] {
            assert_eq!(refused(i, o, rule, b"1", lengths), plain(9));
        }
    }
}

#[test]
fn rule_needs_the_share_of_its_states() {
    assert_eq!(shares(1, 1, 3), EXACT);
    for k in 0..4 {
        let mut lengths = EXACT;
        for length in 0..EXACT[k] {
            lengths[k] = length;
            assert_eq!(refused(1, 1, b"Fp", b"1", lengths), short(3));
        }
        // All the room of another buffer does not help.
        let mut lengths = [512, 128, 256, 128];
        lengths[k] = EXACT[k] - 1;
        assert_eq!(refused(1, 1, b"Fp", b"1", lengths), short(3));
    }
    let mut space = filled(EXACT);
    assert_eq!(solve_rule(1, 1, Fair, b"Fp", b"1", &mut space), Ok(Verdict { can: true, n: 3, round: 1 }));
    assert_eq!(space.moves, [1, 1, 2, 2, 1, 1, 2, 2, 2, 2, 2, 2]);
    assert_eq!(space.marks, [0, 0, 1]);
    assert_eq!(space.station, [1, 1, 1, 1, 0, 0]);
    assert_eq!(space.outside, [255; 3]);
}

#[test]
fn rule_writes_the_share_of_its_states_alone() {
    let mut exact = filled(EXACT);
    solve_rule(1, 1, Fair, b"Fp", b"1", &mut exact).unwrap();
    for more in [[1, 0, 0, 0], [0, 1, 0, 0], [0, 0, 1, 0], [0, 0, 0, 1], [500, 125, 250, 125], [501, 126, 251, 126]] {
        let mut space = filled(std::array::from_fn(|k| EXACT[k] + more[k]));
        assert_eq!(solve_rule(1, 1, Fair, b"Fp", b"1", &mut space), Ok(Verdict { can: true, n: 3, round: 1 }));
        let parts = [
            (&space.moves, &exact.moves),
            (&space.marks, &exact.marks),
            (&space.station, &exact.station),
            (&space.outside, &exact.outside),
        ];
        for (k, (bytes, share)) in parts.into_iter().enumerate() {
            assert_eq!(*bytes, [&share[..], &vec![7; more[k]][..]].concat(), "buffer {k}");
        }
    }
}

#[test]
fn rule_asked_for_its_states() {
    // Every rule has a state, so a call with no buffers is never served.
    for (rule, n) in [(&b"1"[..], 2), (b"Fp", 3), (b"Fa", 3), (b"F(a&Xa)", 4), (b"Na", 4), (b"F(a&XFa)", 5)] {
        assert_eq!(refused(1, 1, rule, b"1", [0; 4]), short(n), "{rule:?}");
        let verdict = solve_rule(1, 1, Fair, rule, b"1", &mut filled(shares(1, 1, n))).unwrap();
        assert_eq!(verdict.n, n);
    }
    for &(n, i, o, rule) in LARGE {
        let wanted = if n > 128 { plain(9) } else { short(n) };
        assert_eq!(refused(i, o, rule, b"1", [0; 4]), wanted);
        let mut lengths = shares(i, o, n.min(128));
        lengths[0] -= 1;
        assert_eq!(refused(i, o, rule, b"1", lengths), wanted);
    }
}

/// A given automaton with one state that is no goal, i = o = 1.
fn given() -> Given {
    Given { n: 1, moves: vec![0; 4], marks: vec![0], start: 0, mask: 2 }
}

#[test]
fn given_order() {
    let ask = |i, given: &Given, station: usize, outside: usize| {
        let (mut station, mut outside) = (vec![7; station], vec![7; outside]);
        let answer = solve_given(i, 1, Stable, given, &mut station, &mut outside);
        assert!(answer.is_ok() || station.iter().chain(&outside).all(|&byte| byte == 7));
        answer
    };
    let mut bad = Given { n: 0, moves: vec![9; 4], marks: vec![], start: 2, mask: 4 };
    assert_eq!(ask(5, &bad, 0, 0), plain(1));
    assert_eq!(ask(1, &bad, 0, 0), plain(10));
    bad.n = 129;
    assert_eq!(ask(1, &bad, 0, 0), plain(10));
    bad.n = 1;
    assert_eq!(ask(1, &bad, 2, 1), short(1));
    bad.marks.push(0);
    assert_eq!(ask(1, &bad, 1, 1), short(1));
    assert_eq!(ask(1, &bad, 2, 0), short(1));
    assert_eq!(ask(1, &bad, 2, 1), plain(12));
    bad.start = 0;
    assert_eq!(ask(1, &bad, 2, 1), placed(11, 0));
    bad.moves = vec![0, 0, 1, 9];
    assert_eq!(ask(1, &bad, 2, 1), placed(11, 2));
    bad.moves = vec![0, 0, 0, 0, 9];
    assert_eq!(ask(1, &bad, 2, 1), plain(13));
    assert_eq!(ask(1, &Given { moves: vec![0; 3], ..given() }, 2, 1), short(1));
    assert_eq!(ask(1, &Given { mask: 0, ..given() }, 2, 1), plain(15), "no input has the condition");
    let can = Ok(Verdict { can: true, n: 1, round: 1 });
    assert_eq!(ask(1, &Given { marks: vec![1], ..given() }, 2, 1), can);
    let cannot = Ok(Verdict { can: false, n: 1, round: 0 });
    assert_eq!(ask(1, &given(), 2, 1), cannot);
}

#[test]
fn given_needs_and_writes_the_share_of_its_states() {
    // Three states, i = o = 1: output 1 goes on to the next state, output 0 stays; state 2 is the goal and stays.
    let given = |moves: usize, marks: usize| {
        let (all, goals) = ([0, 0, 1, 1, 1, 1, 2, 2, 2, 2, 2, 2, 99], [0, 0, 5, 44]);
        Given { n: 3, moves: all[..moves].to_vec(), marks: goals[..marks].to_vec(), start: 0, mask: 3 }
    };
    let solve = |lengths: [usize; 4]| {
        let (mut station, mut outside) = (vec![7; lengths[2]], vec![7; lengths[3]]);
        let answer = solve_given(1, 1, Fair, &given(lengths[0], lengths[1]), &mut station, &mut outside);
        (answer, station, outside)
    };
    let can = Ok(Verdict { can: true, n: 3, round: 2 });
    for k in 0..4 {
        let mut lengths = EXACT;
        lengths[k] -= 1;
        assert_eq!(solve(lengths), (short(3), vec![7; lengths[2]], vec![7; lengths[3]]));
        lengths[k] += 2;
        let (answer, station, outside) = solve(lengths);
        assert_eq!(answer, can);
        assert_eq!(station, [&[1, 1, 1, 1, 0, 0][..], &vec![7; lengths[2] - 6]].concat());
        assert_eq!(outside, [&[255; 3][..], &vec![7; lengths[3] - 3]].concat());
    }
    assert_eq!(solve(EXACT), (can, vec![1, 1, 1, 1, 0, 0], vec![255; 3]));
}

#[test]
fn follower_order_and_steps() {
    let moves = [1, 1, 9, 0, 0, 0, 0, 0];
    let marks = [0, 8];
    let station = [0, 2, 1, 255];
    let lent = |n| Lent { n, moves: &moves, marks: &marks, station: &station };
    assert_eq!(follow(1, 5, lent(0), 9, 9, false), plain(1));
    assert_eq!(follow(1, 1, lent(0), 9, 9, false), plain(10));
    assert_eq!(follow(1, 1, lent(3), 9, 9, false), short(3));
    assert_eq!(follow(1, 1, Lent { moves: &moves[1..], ..lent(2) }, 9, 9, false), short(2));
    assert_eq!(follow(1, 1, Lent { marks: &marks[1..], ..lent(2) }, 9, 9, false), short(2));
    assert_eq!(follow(1, 1, Lent { station: &station[1..], ..lent(2) }, 9, 9, false), short(2));
    assert_eq!(follow(1, 1, lent(2), 9, 2, false), plain(12));
    assert_eq!(follow(1, 1, lent(2), 2, 1, false), plain(13));
    assert_eq!(follow(1, 1, lent(2), 1, 0, false), Ok(None));
    assert_eq!(follow(1, 1, lent(2), 1, 1, false), Ok(None));
    assert_eq!(follow(1, 1, lent(2), 0, 0, false), Ok(Some(Step { output: 0, state: 1, reached: true })));
    assert_eq!(follow(1, 1, lent(2), 0, 1, true), Ok(Some(Step { output: 1, state: 0, reached: true })));
    assert_eq!(follow(1, 1, lent(2), 0, 1, false), Ok(Some(Step { output: 1, state: 0, reached: false })));
    let other = Lent { station: &[1, 1, 1, 1], ..lent(2) };
    assert_eq!(follow(1, 1, other, 0, 0, false), placed(11, 2));
}

#[test]
fn trial_order() {
    assert_eq!(try_rule(9, 1, &[b'&'; 256], &[99]), plain(1));
    assert_eq!(try_rule(1, 1, &[b'&'; 256], &[99]), plain(2));
    assert_eq!(try_rule(1, 1, b"", &[99]), placed(4, 0));
    assert_eq!(try_rule(1, 1, &[&[b'!'; 64][..], b"1"].concat(), &[99]), plain(5));
    assert_eq!(try_rule(1, 1, b"XXXXXX1", &[99]), plain(6));
    assert_eq!(try_rule(1, 1, b"1", &[3, 0, 4, 9]), placed(13, 2));
    assert_eq!(try_rule(4, 4, b"a&s", &[255]), Ok(true));
    assert_eq!(try_rule(1, 1, b"1", &[]), Ok(false));
}

#[test]
fn counts_of_the_large_rules() {
    for &(n, i, o, rule) in LARGE {
        let tree = read(rule, Wording::rule(i, o)).unwrap();
        assert_eq!(build(&tree, i, o, 500).unwrap().n(), n);
        let answer = solve_rule(i, o, Fair, rule, b"1", &mut buffers(i, o));
        assert_eq!(answer.map(|verdict| verdict.n), if n > 128 { plain(9) } else { Ok(n) });
    }
}
