//! Which other promise would do: the engine is asked the same rule with other promises.

use crate::case::Case;
use crate::engine::{Mode, Question};
use crate::formula;

/// A promise that was asked about, and the engine's answer.
#[derive(Clone, Debug)]
pub struct Asked {
    pub mode: Mode,
    /// The input numbers that meet the condition.
    pub meets: Vec<bool>,
    pub can: bool,
    pub round: usize,
}

/// What was asked on "cannot".
#[derive(Clone, Debug)]
pub struct Other {
    /// The same condition in the other mode; nothing where every input meets it, for then the mode makes no difference.
    pub mode: Option<Asked>,
    /// Of the conditions that fix some inputs besides, in both modes, the weakest that do.
    pub narrower: Vec<Asked>,
    /// How many questions the engine was asked in all.
    pub questions: usize,
}

impl Asked {
    /// Whether another promise is at least as strong as this one: fewer inputs meet its condition, in the same mode or the stronger.
    fn covers(&self, mode: Mode, meets: &[bool]) -> bool {
        (self.mode == Mode::Fair || mode == Mode::Stable) && within(meets, &self.meets)
    }
}

/// The letters of the engine's inputs.
const LETTERS: [&str; 4] = ["a", "b", "c", "d"];

/// Asks the rule with another promise. The condition is the case's where it is met by the same inputs, else the set written anew.
fn ask(case: &Case, mode: Mode, meets: &[bool]) -> Asked {
    let mut question = Question { mode, ..case.question.clone() };
    if meets != case.meets {
        question.condition = formula::short(meets, &LETTERS[..question.inputs]).replace(' ', "");
    }
    let answer = question.solve().expect("a met condition of few marks is accepted as the rule was");
    Asked { mode, meets: meets.to_vec(), can: answer.can, round: answer.round }
}

/// The conditions that fix some inputs besides the case's, those that most inputs meet first; none that nothing meets.
fn narrowed(case: &Case) -> Vec<Vec<bool>> {
    let numbers = 1usize << case.answer.inputs;
    let mut sets: Vec<Vec<bool>> = Vec::new();
    for fixed in 0..numbers {
        for value in (0..numbers).filter(|value| value & !fixed == 0) {
            let set: Vec<bool> = (0..numbers).map(|x| case.meets[x] && x & fixed == value).collect();
            if set != case.meets && set.contains(&true) && !sets.contains(&set) {
                sets.push(set);
            }
        }
    }
    sets.sort_by_key(|set| set.iter().filter(|&&meets| !meets).count());
    sets
}

/// Whether one set of inputs lies within another.
fn within(small: &[bool], large: &[bool]) -> bool {
    small.iter().zip(large).all(|(small, large)| *large || !*small)
}

/// Asks the engine which other promise would do, after a "cannot".
pub fn other(case: &Case) -> Other {
    let turned = match case.question.mode {
        Mode::Fair => Mode::Stable,
        Mode::Stable => Mode::Fair,
    };
    let mode = case.meets.contains(&false).then(|| ask(case, turned, &case.meets));
    let mut questions = mode.iter().len();
    let mut does: Vec<Asked> = mode.iter().filter(|asked| asked.can).cloned().collect();
    let known = does.len();
    for meets in narrowed(case) {
        for mode in [Mode::Fair, Mode::Stable] {
            if !does.iter().any(|asked| asked.covers(mode, &meets)) {
                let asked = ask(case, mode, &meets);
                questions += 1;
                does.extend(Some(asked).filter(|asked| asked.can));
            }
        }
    }
    Other { mode, narrower: does.split_off(known), questions }
}
