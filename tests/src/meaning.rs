//! What a rule means, directly from the specification's words, position by position of a list, with a
//! memory for each node and position. No automaton is used.

use crate::tree::Tree;
use crate::wording::name_holds;

/// A rule looked at over one list, with the values found so far.
struct Look<'a> {
    tree: &'a Tree,
    i: usize,
    letters: &'a [u8],
    known: Vec<Option<bool>>,
}

impl Look<'_> {
    /// Whether a node holds at a position, asked at most once.
    fn holds(&mut self, node: usize, position: usize) -> bool {
        let key = node * self.letters.len() + position;
        if let Some(value) = self.known[key] {
            return value;
        }
        let value = self.fresh(node, position);
        self.known[key] = Some(value);
        value
    }

    /// The value by the meaning of the node's mark.
    fn fresh(&mut self, node: usize, position: usize) -> bool {
        let tree = self.tree;
        let kids = &tree.nodes[node].kids;
        let next = position + 1;
        match tree.nodes[node].mark {
            b'0' => false,
            b'1' => true,
            b'!' => !self.holds(kids[0], position),
            b'&' => self.holds(kids[0], position) && self.holds(kids[1], position),
            b'|' => self.holds(kids[0], position) || self.holds(kids[1], position),
            b'>' => !self.holds(kids[0], position) || self.holds(kids[1], position),
            b'X' => next < self.letters.len() && self.holds(kids[0], next),
            b'N' => next >= self.letters.len() || self.holds(kids[0], next),
            b'U' => self.until(Some(kids[0]), kids[1], position, true),
            b'R' => !self.until(Some(kids[0]), kids[1], position, false),
            b'F' => self.until(None, kids[0], position, true),
            b'G' => !self.until(None, kids[0], position, false),
            name => name_holds(name, self.i, self.letters[position] as usize),
        }
    }

    /// Whether `right` is `wanted` at this or a later position and `left` is at all before it.
    /// With `wanted` false this is the until of the two negations; no `left` stands for `1`.
    fn until(&mut self, left: Option<usize>, right: usize, from: usize, wanted: bool) -> bool {
        (from..self.letters.len()).any(|later| {
            self.holds(right, later) == wanted
                && (from..later).all(|k| left.is_none_or(|node| self.holds(node, k) == wanted))
        })
    }
}

/// Whether a list of letters satisfies a rule; the empty list satisfies none.
pub fn satisfies(tree: &Tree, i: usize, letters: &[u8]) -> bool {
    if letters.is_empty() {
        return false;
    }
    let known = vec![None; tree.count() * letters.len()];
    Look { tree, i, letters, known }.holds(tree.root, 0)
}
