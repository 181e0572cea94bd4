//! A station file with the engine's answer: what a report is about.

use crate::engine::{Answer, Question};
use crate::station::{self, Fault, Station};

/// A station, its question, the engine's answer, and which input numbers meet the promise's condition.
#[derive(Clone, Debug)]
pub struct Case {
    pub station: Station,
    pub question: Question,
    pub answer: Answer,
    pub meets: Vec<bool>,
}

impl Case {
    /// Reads a station file and asks the engine.
    pub fn of(file: &[u8]) -> Result<Case, Fault> {
        let station = station::read(file)?;
        let question = station.question();
        let answer = question.solve().map_err(|refusal| station.refused(refusal))?;
        let meets = question.meets();
        Ok(Case { station, question, answer, meets })
    }

    /// The names of the inputs, in their order.
    pub fn input_names(&self) -> Vec<&str> {
        self.station.inputs.iter().map(|wire| &*wire.name).collect()
    }

    /// The names of the outputs, in their order.
    pub fn output_names(&self) -> Vec<&str> {
        self.station.outputs.iter().map(|wire| &*wire.name).collect()
    }
}
