//! A rule or condition after reading: a list of nodes, each with its mark, the place of
//! that mark in the text and its operands. Parentheses leave no node.

use crate::wording::{is_temporal, name_holds};

/// One name, constant or operator.
#[derive(Clone, Debug)]
pub struct Node {
    pub mark: u8,
    pub at: usize,
    pub kids: Vec<usize>,
}

/// All nodes of a text; `root` is the number of the topmost.
#[derive(Clone, Debug)]
pub struct Tree {
    pub nodes: Vec<Node>,
    pub root: usize,
}

impl Tree {
    /// How many nodes were written.
    pub fn count(&self) -> usize {
        self.nodes.len()
    }

    /// The temporal operators' node numbers in the order of their bytes in the text.
    pub fn operators(&self) -> Vec<usize> {
        let mut list: Vec<usize> = (0..self.nodes.len()).filter(|&k| is_temporal(self.nodes[k].mark)).collect();
        list.sort_by_key(|&k| self.nodes[k].at);
        list
    }

    /// The value of a tree without temporal operators in one letter.
    pub fn plain_value(&self, node: usize, i: usize, letter: usize) -> bool {
        let Node { mark, kids, .. } = &self.nodes[node];
        let value = |k: usize| self.plain_value(kids[k], i, letter);
        match mark {
            b'0' => false,
            b'1' => true,
            b'!' => !value(0),
            b'&' => value(0) && value(1),
            b'|' => value(0) || value(1),
            b'>' => !value(0) || value(1),
            name => name_holds(*name, i, letter),
        }
    }
}

/// The condition as a mask: bit X says whether it holds for input X.
pub fn condition_mask(tree: &Tree, i: usize) -> u16 {
    (0..1usize << i).filter(|&x| tree.plain_value(tree.root, i, x)).map(|x| 1u16 << x).sum()
}
