//! The library's calls, as include/airtable.h has them. Every fact in a report comes from here.

#[allow(dead_code)]
mod header {
    include!(concat!(env!("OUT_DIR"), "/header.rs"));
}

/// What the outside promises of the condition: again and again, or from some step on always.
#[derive(Clone, Copy, Debug, PartialEq, Eq)]
pub enum Mode {
    Fair,
    Stable,
}

impl Mode {
    /// The mode's word in the engine's second line.
    pub fn word(self) -> &'static str {
        match self {
            Mode::Fair => "fair",
            Mode::Stable => "stable",
        }
    }
}

/// The engine's four lines: what it is asked.
#[derive(Clone, Debug, PartialEq, Eq)]
pub struct Question {
    pub inputs: usize,
    pub outputs: usize,
    pub mode: Mode,
    pub condition: String,
    pub rule: String,
}

/// A refusal: its number, and its place where the header names one.
#[derive(Clone, Copy, Debug, PartialEq, Eq)]
pub struct Refusal {
    pub number: u8,
    pub place: usize,
}

/// What the engine hands out: the verdict, the number of states, the round number, and the four buffers.
#[derive(Clone, Debug, PartialEq, Eq)]
pub struct Answer {
    pub inputs: usize,
    pub outputs: usize,
    pub can: bool,
    pub n: usize,
    pub round: usize,
    pub moves: Vec<u8>,
    pub marks: Vec<u8>,
    pub station: Vec<u8>,
    pub outside: Vec<u8>,
}

/// A position of the follower: the state, and whether a goal was reached.
#[derive(Clone, Copy, Debug, PartialEq, Eq)]
pub struct Position {
    pub state: usize,
    pub reached: bool,
}

/// What `airtable_solve_rule` tells, with buffers of some lengths.
fn call(question: &Question, buffers: &mut [Vec<u8>; 4]) -> Result<(bool, usize, usize), (Refusal, usize)> {
    let (mut can, mut n, mut round, mut place) = (0, 0, 0, 0);
    let mode = (question.mode == Mode::Stable) as u8;
    let [moves, marks, station, outside] = buffers;
    // SAFETY: each pointer comes with the length of its own buffer, and no two overlap.
    let number = unsafe {
        header::airtable_solve_rule(
            question.inputs,
            question.outputs,
            mode,
            question.rule.as_ptr(),
            question.rule.len(),
            question.condition.as_ptr(),
            question.condition.len(),
            moves.as_mut_ptr(),
            moves.len(),
            marks.as_mut_ptr(),
            marks.len(),
            station.as_mut_ptr(),
            station.len(),
            outside.as_mut_ptr(),
            outside.len(),
            &mut can,
            &mut n,
            &mut round,
            &mut place,
        )
    };
    match number {
        0 => Ok((can == 1, n, round)),
        number => Err((Refusal { number, place }, n)),
    }
}

impl Question {
    /// The engine's answer: the first call asks how many states there are, the second lends room for them.
    pub fn solve(&self) -> Result<Answer, Refusal> {
        let (inputs, outputs) = (self.inputs, self.outputs);
        let n = match call(self, &mut Default::default()) {
            Err((Refusal { number: 3, .. }, n)) => n,
            Err((refusal, _)) => return Err(refusal),
            Ok(_) => unreachable!("no buffer is enough for a state"),
        };
        let mut buffers = [n << (inputs + outputs), n, n << inputs, n].map(|length| vec![0; length]);
        let (can, n, round) = call(self, &mut buffers).map_err(|(refusal, _)| refusal)?;
        let [moves, marks, station, outside] = buffers;
        Ok(Answer { inputs, outputs, can, n, round, moves, marks, station, outside })
    }

    /// Which input numbers meet the condition: it is tried as a rule on the list of that one step.
    pub fn meets(&self) -> Vec<bool> {
        (0..1u8 << self.inputs).map(|input| tried(self.inputs, 0, &self.condition, &[input])).collect()
    }

    /// Whether a list of letters satisfies the rule.
    pub fn satisfied(&self, letters: &[u8]) -> bool {
        tried(self.inputs, self.outputs, &self.rule, letters)
    }

    /// The four lines of `./airtable`.
    pub fn lines(&self) -> String {
        format!("{} {}\n{}\n{}\n{}\n", self.inputs, self.outputs, self.mode.word(), self.condition, self.rule)
    }
}

/// Whether a list of letters satisfies a text that the engine has accepted as a rule or as a condition.
fn tried(inputs: usize, outputs: usize, text: &str, letters: &[u8]) -> bool {
    let (mut satisfied, mut place) = (0, 0);
    // SAFETY: each pointer comes with the length of its own bytes.
    let number = unsafe {
        header::airtable_try_rule(
            inputs,
            outputs,
            text.as_ptr(),
            text.len(),
            letters.as_ptr(),
            letters.len(),
            &mut satisfied,
            &mut place,
        )
    };
    assert_eq!(number, 0, "an accepted text is tried");
    satisfied == 1
}

impl Answer {
    /// The state after a letter.
    pub fn after(&self, state: usize, input: usize, output: usize) -> usize {
        self.moves[(((state << self.outputs) + output) << self.inputs) + input] as usize
    }

    /// Whether a state is a goal.
    pub fn goal(&self, state: usize) -> bool {
        self.marks[state] == 1
    }

    /// Whether the station wins from a state.
    pub fn wins(&self, state: usize) -> bool {
        self.outside[state] == 255
    }

    /// The station's output in a state that it wins.
    pub fn output(&self, state: usize, input: usize) -> usize {
        self.station[(state << self.inputs) + input] as usize
    }

    /// The outside's input in a state that it wins.
    pub fn input(&self, state: usize) -> usize {
        self.outside[state] as usize
    }

    /// One step of the library's follower on a station's table: the output, or nothing where the table has none.
    pub fn follow(&self, station: &[u8], input: usize, position: &mut Position) -> Option<usize> {
        let (mut reached, mut row, mut output, mut place) = (position.reached as u8, 0, 0, 0);
        // SAFETY: each pointer comes with the length of its own buffer, and what is written overlaps nothing.
        let number = unsafe {
            header::airtable_follow(
                self.inputs,
                self.outputs,
                self.n,
                self.moves.as_ptr(),
                self.moves.len(),
                self.marks.as_ptr(),
                self.marks.len(),
                station.as_ptr(),
                station.len(),
                input,
                &mut position.state,
                &mut reached,
                &mut row,
                &mut output,
                &mut place,
            )
        };
        assert_eq!(number, 0, "the follower is lent what the engine handed out");
        position.reached = reached == 1;
        (row == 1).then_some(output as usize)
    }
}
