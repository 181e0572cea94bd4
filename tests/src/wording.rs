//! The marks of the grammar. A wording says how many names are in reach and whether
//! temporal marks are allowed, so that rules and conditions share one reader.

/// What may stand in a text: the first `inputs` and `outputs` names, and temporal marks or none.
#[derive(Clone, Copy, Debug)]
pub struct Wording {
    pub inputs: usize,
    pub outputs: usize,
    pub temporal: bool,
}

/// The kinds of marks the grammar tells apart.
#[derive(Clone, Copy, Debug, PartialEq, Eq)]
pub enum Class {
    Atom,
    Prefix,
    Until,
    And,
    Or,
    Implies,
    Open,
    Close,
}

const INPUTS: &[u8] = b"abcd";
const OUTPUTS: &[u8] = b"pqrs";

impl Wording {
    /// The wording of a rule with i inputs and o outputs.
    pub fn rule(i: usize, o: usize) -> Wording {
        Wording { inputs: i, outputs: o, temporal: true }
    }

    /// The wording of a condition: input names only, no temporal operator.
    pub fn condition(i: usize) -> Wording {
        Wording { inputs: i, outputs: 0, temporal: false }
    }

    /// The class of a byte, or nothing where the byte is no mark of this wording.
    pub fn class(&self, byte: u8) -> Option<Class> {
        let class = match byte {
            b'0' | b'1' => Class::Atom,
            b'!' => Class::Prefix,
            b'&' => Class::And,
            b'|' => Class::Or,
            b'>' => Class::Implies,
            b'(' => Class::Open,
            b')' => Class::Close,
            b'X' | b'N' | b'F' | b'G' if self.temporal => Class::Prefix,
            b'U' | b'R' if self.temporal => Class::Until,
            _ if INPUTS[..self.inputs].contains(&byte) => Class::Atom,
            _ if OUTPUTS[..self.outputs].contains(&byte) => Class::Atom,
            _ => return None,
        };
        Some(class)
    }
}

/// Whether a mark is one of the six temporal operators.
pub fn is_temporal(mark: u8) -> bool {
    b"XNFGUR".contains(&mark)
}

/// The value of a name in a letter: inputs from bit 0, outputs from bit i.
pub fn name_holds(mark: u8, i: usize, letter: usize) -> bool {
    let bit = match mark {
        b'a'..=b'd' => (mark - b'a') as usize,
        b'p'..=b's' => i + (mark - b'p') as usize,
        _ => unreachable!("not a name: {mark}"),
    };
    letter >> bit & 1 == 1
}
