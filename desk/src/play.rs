//! What the tables let happen: the states they come to, the moves in them, a play that defeats the station, rules kept too soon.
//! All of it is read off the engine's answer.

use crate::case::Case;
use crate::engine::Answer;
use crate::formula;
use crate::picture::{Arrow, Graph, Node};

/// Moves from a state that lead to one other: sets of input and of output numbers, every pair of which leads there.
#[derive(Clone, Debug, PartialEq, Eq)]
pub struct Moves {
    pub inputs: Vec<bool>,
    pub outputs: Vec<bool>,
    pub to: usize,
}

/// The set of one number.
fn only(number: usize, count: usize) -> Vec<bool> {
    (0..count).map(|k| k == number).collect()
}

/// The moves by the station's table from a state that it wins: one for each output and next state.
pub fn by_station(answer: &Answer, state: usize) -> Vec<Moves> {
    let mut found: Vec<Moves> = Vec::new();
    let (inputs, outputs) = (1 << answer.inputs, 1 << answer.outputs);
    for input in 0..inputs {
        let output = answer.output(state, input);
        let to = answer.after(state, input, output);
        match found.iter_mut().find(|moves| moves.to == to && moves.outputs[output]) {
            Some(moves) => moves.inputs[input] = true,
            None => found.push(Moves { inputs: only(input, inputs), outputs: only(output, outputs), to }),
        }
    }
    found
}

/// The moves on one input, one for each next state.
pub fn on_input(answer: &Answer, state: usize, input: usize) -> Vec<Moves> {
    let mut found: Vec<Moves> = Vec::new();
    let (inputs, outputs) = (1 << answer.inputs, 1 << answer.outputs);
    for output in 0..outputs {
        let to = answer.after(state, input, output);
        match found.iter_mut().find(|moves| moves.to == to) {
            Some(moves) => moves.outputs[output] = true,
            None => found.push(Moves { inputs: only(input, inputs), outputs: only(output, outputs), to }),
        }
    }
    found
}

/// The moves from a state by the table of the side that wins there.
pub fn by_table(answer: &Answer, state: usize) -> Vec<Moves> {
    if answer.wins(state) {
        by_station(answer, state)
    } else {
        on_input(answer, state, answer.input(state))
    }
}

/// The states that a play by the winner's table can come to; no play goes on behind a goal.
pub fn reached(answer: &Answer) -> Vec<bool> {
    let mut reached = vec![false; answer.n];
    let mut waiting = vec![0];
    reached[0] = true;
    while let Some(state) = waiting.pop() {
        for moves in by_table(answer, state) {
            if !reached[moves.to] {
                reached[moves.to] = true;
                if !answer.goal(moves.to) {
                    waiting.push(moves.to);
                }
            }
        }
    }
    reached
}

/// The states that any play can come to before it enters a goal, whatever both sides do.
pub fn before_goals(answer: &Answer) -> Vec<bool> {
    let letters = 1usize << (answer.inputs + answer.outputs);
    let mut found = vec![false; answer.n];
    let mut waiting = vec![0];
    found[0] = true;
    while let Some(state) = waiting.pop() {
        for &to in &answer.moves[state * letters..][..letters] {
            let to = usize::from(to);
            if !found[to] && !answer.goal(to) {
                found[to] = true;
                waiting.push(to);
            }
        }
    }
    found
}

/// The states that a table has moves from in a play: those that are reached and no goal. The start counts, whatever its mark.
pub fn lively(answer: &Answer, reached: &[bool]) -> Vec<usize> {
    (0..answer.n).filter(|&s| reached[s] && (s == 0 || !answer.goal(s))).collect()
}

/// Where a wrong command of the winner leads to the loser's side: for each state in a play, the states that the loser wins.
pub fn strays(answer: &Answer, state: usize) -> Vec<usize> {
    let losing = |t: usize| (answer.goal(t) || answer.wins(t)) != answer.can;
    let letters = 1usize << (answer.inputs + answer.outputs);
    let mut found: Vec<usize> =
        (0..letters).map(|letter| answer.moves[state * letters + letter] as usize).filter(|&t| losing(t)).collect();
    found.sort_unstable();
    found.dedup();
    found
}

/// The loser's states that one wrong command of the winner leads to, in a play by its table.
pub fn lost_by_one(answer: &Answer) -> Vec<usize> {
    let reached = reached(answer);
    let mut lost: Vec<usize> = lively(answer, &reached).into_iter().flat_map(|s| strays(answer, s)).collect();
    lost.sort_unstable();
    lost.dedup();
    lost
}

/// The inputs of moves in words: a formula, or the exact setting where it is one.
pub fn inputs_shown(case: &Case, moves: &Moves) -> String {
    match formula::short(&moves.inputs, &case.input_names()).as_str() {
        "1" if case.answer.inputs == 0 => "no inputs".into(),
        "1" => "any input".into(),
        text => text.into(),
    }
}

/// The outputs of moves in words: what is set where it is one output, else a formula.
pub fn outputs_shown(case: &Case, moves: &Moves) -> String {
    let chosen: Vec<usize> = (0..moves.outputs.len()).filter(|&y| moves.outputs[y]).collect();
    match chosen[..] {
        [output] if case.answer.can => set(output, &case.output_names()),
        _ => match formula::short(&moves.outputs, &case.output_names()).as_str() {
            "1" if case.answer.outputs == 0 => "nothing".into(),
            "1" => "anything".into(),
            text => text.into(),
        },
    }
}

/// The names that a number sets, or "nothing".
pub fn set(number: usize, names: &[&str]) -> String {
    let on: Vec<&str> = (0..names.len()).filter(|j| number >> j & 1 == 1).map(|j| names[j]).collect();
    if on.is_empty() {
        "nothing".into()
    } else {
        on.join(", ")
    }
}

/// The arrows of a state's moves by the winner's table, one for each next state.
fn arrows(case: &Case, state: usize) -> Vec<Arrow> {
    let mut found: Vec<Arrow> = Vec::new();
    for moves in by_table(&case.answer, state) {
        let line = format!("{} / {}", inputs_shown(case, &moves), outputs_shown(case, &moves));
        match found.iter_mut().find(|arrow| arrow.to == moves.to) {
            Some(arrow) => arrow.lines.push(line),
            None => found.push(Arrow { from: state, to: moves.to, lines: vec![line], stray: false }),
        }
    }
    found
}

/// The states that a drawing with the loser's may have: more of them would only be in the way.
const WITH_LOST: usize = 24;

/// The drawing of a case.
pub fn graph(case: &Case) -> Graph {
    graph_within(case, WITH_LOST)
}

/// The drawing: the states that the table can come to with its moves, and, where all are no more than some number, the loser's states
/// that one wrong command of the winner would lead to.
pub fn graph_within(case: &Case, with_lost: usize) -> Graph {
    let answer = &case.answer;
    let reached = reached(answer);
    let node = |state: usize, lost: bool| Node { state, start: state == 0, goal: answer.goal(state), lost };
    let mut graph = Graph::default();
    graph.nodes = (0..answer.n).filter(|&s| reached[s]).map(|s| node(s, false)).collect();
    let lively = lively(answer, &reached);
    graph.arrows = lively.iter().flat_map(|&s| arrows(case, s)).collect();
    let stray = |from: usize, to: usize| Arrow { from, to, lines: Vec::new(), stray: true };
    let lost = lost_by_one(answer);
    if graph.nodes.len() + lost.len() <= with_lost {
        graph.nodes.extend(lost.into_iter().map(|s| node(s, true)));
        graph.arrows.extend(lively.iter().flat_map(|&s| strays(answer, s).into_iter().map(move |t| stray(s, t))));
    }
    graph
}

/// A step of a play: where it begins, what is set, where it leads, whether the condition holds, and whether the rule is kept by then.
#[derive(Clone, Copy, Debug, PartialEq, Eq)]
pub struct Step {
    pub state: usize,
    pub input: usize,
    pub output: usize,
    pub to: usize,
    pub condition: bool,
    pub kept: bool,
}

/// For each state the fewest steps to a goal, whatever both sides do in them; nothing where no goal follows.
pub fn distances(answer: &Answer) -> Vec<Option<usize>> {
    let letters = 1usize << (answer.inputs + answer.outputs);
    let mut distances = vec![None; answer.n];
    for distance in 1..=answer.n {
        let near = |t: usize| answer.goal(t) || matches!(distances[t], Some(d) if d < distance);
        let next: Vec<usize> = (0..answer.n)
            .filter(|&s| distances[s].is_none())
            .filter(|&s| answer.moves[s * letters..][..letters].iter().any(|&t| near(t as usize)))
            .collect();
        next.into_iter().for_each(|s| distances[s] = Some(distance));
    }
    distances
}

/// A play by the outside's table in which the station always goes where a goal is nearest, up to the first state that comes again;
/// with the index of the step that began there, from which it repeats without end.
pub fn defeat(case: &Case) -> (Vec<Step>, usize) {
    let answer = &case.answer;
    let distances = distances(answer);
    let (mut steps, mut letters, mut state): (Vec<Step>, Vec<u8>, usize) = (Vec::new(), Vec::new(), 0);
    loop {
        if let Some(back) = steps.iter().position(|step| step.state == state) {
            return (steps, back);
        }
        let input = answer.input(state);
        let far = |output: &usize| distances[answer.after(state, input, *output)].unwrap_or(usize::MAX);
        let output = (0..1 << answer.outputs).min_by_key(far).unwrap_or(0);
        let to = answer.after(state, input, output);
        letters.push((input + (output << answer.inputs)) as u8);
        let kept = case.question.satisfied(&letters);
        steps.push(Step { state, input, output, to, condition: case.meets[input], kept });
        state = to;
    }
}

/// A rule that hardly says what was meant.
#[derive(Clone, Copy, Debug, PartialEq, Eq)]
pub enum OddRule {
    /// Every first step keeps it, whatever both sides do.
    KeptByAll,
    /// By the station's table every first step keeps it, whatever the outside does.
    KeptAtOnce,
    /// No list of steps keeps it.
    KeptByNone,
}

/// Whether the rule is kept at its first step whatever happens, or never.
pub fn odd_rule(case: &Case) -> Option<OddRule> {
    let answer = &case.answer;
    let letters = 1usize << (answer.inputs + answer.outputs);
    if (0..letters).all(|letter| answer.goal(answer.moves[letter] as usize)) {
        Some(OddRule::KeptByAll)
    } else if answer.can && by_station(answer, 0).iter().all(|moves| answer.goal(moves.to)) {
        Some(OddRule::KeptAtOnce)
    } else if distances(answer)[0].is_none() {
        Some(OddRule::KeptByNone)
    } else {
        None
    }
}
