//! Recursive descent from text to tree. It only says yes or no; the place of a bad text
//! is found by another method, in `viable`. The limits are checked here too.

use crate::tree::{Node, Tree};
use crate::viable::longest_viable;
use crate::wording::{Class, Wording};

/// The binary levels from the loosest to the tightest; all group to the right.
const LEVELS: [Class; 4] = [Class::Implies, Class::Or, Class::And, Class::Until];

/// A text under reading, with the nodes made so far.
struct Reading<'a> {
    text: &'a [u8],
    wording: Wording,
    at: usize,
    nodes: Vec<Node>,
}

impl Reading<'_> {
    /// Passes blanks and shows the next mark's byte and class.
    fn peek(&mut self) -> Option<(u8, Class)> {
        while self.text.get(self.at) == Some(&b' ') {
            self.at += 1;
        }
        let byte = *self.text.get(self.at)?;
        Some((byte, self.wording.class(byte)?))
    }

    /// Adds a node and hands back its number.
    fn add(&mut self, mark: u8, at: usize, kids: Vec<usize>) -> usize {
        self.nodes.push(Node { mark, at, kids });
        self.nodes.len() - 1
    }

    /// Reads one binary level: an operand, and if this level's mark follows, the level again.
    fn level(&mut self, depth: usize) -> Option<usize> {
        if depth == LEVELS.len() {
            return self.tight();
        }
        let left = self.level(depth + 1)?;
        match self.peek() {
            Some((mark, class)) if class == LEVELS[depth] => {
                let at = self.at;
                self.at += 1;
                let right = self.level(depth)?;
                Some(self.add(mark, at, vec![left, right]))
            }
            _ => Some(left),
        }
    }

    /// Reads a prefix mark with its operand, a name or constant, or a rule in parentheses.
    fn tight(&mut self) -> Option<usize> {
        let (mark, class) = self.peek()?;
        let at = self.at;
        self.at += 1;
        match class {
            Class::Atom => Some(self.add(mark, at, vec![])),
            Class::Prefix => {
                let kid = self.tight()?;
                Some(self.add(mark, at, vec![kid]))
            }
            Class::Open => self.closed(),
            _ => None,
        }
    }

    /// Reads what stands after an opening parenthesis, the closing one included.
    fn closed(&mut self) -> Option<usize> {
        let inner = self.level(0)?;
        let (_, class) = self.peek()?;
        self.at += 1;
        (class == Class::Close).then_some(inner)
    }
}

/// Reads a whole text; nothing if it is not a text of the grammar.
pub fn read_plain(text: &[u8], wording: Wording) -> Option<Tree> {
    let mut reading = Reading { text, wording, at: 0, nodes: vec![] };
    let root = reading.level(0)?;
    while reading.text.get(reading.at) == Some(&b' ') {
        reading.at += 1;
    }
    (reading.at == text.len()).then_some(Tree { nodes: reading.nodes, root })
}

/// Reads a whole text; where it is bad, hands back the specification's place.
pub fn read(text: &[u8], wording: Wording) -> Result<Tree, usize> {
    read_plain(text, wording).ok_or_else(|| longest_viable(text, wording))
}
