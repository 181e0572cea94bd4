//! A rule as a formula of MONA's logic M2L-str, by the usual translation to first-order
//! logic over positions: a name is a set of positions, and a subformula is asked at a position,
//! the whole rule at position 0. A bound position is one of the list's, so that after the last one
//! there is no `y = x + 1`: strong next asks for such a position, weak next for all of them.

use crate::inputs::Rule;
use solver::reader::read;
use solver::tree::Tree;
use solver::wording::Wording;

/// A formula under writing, with the number of bound positions so far.
struct Writer<'a> {
    tree: &'a Tree,
    bound: usize,
}

impl Writer<'_> {
    /// A position's name that was not used before.
    fn fresh(&mut self) -> String {
        self.bound += 1;
        format!("x{}", self.bound)
    }

    /// The node's k-th operand at a position.
    fn operand(&mut self, node: usize, k: usize, at: &str) -> String {
        self.formula(self.tree.nodes[node].kids[k], at)
    }

    /// The operand at the next position: there is one (strong), or wherever there is one (weak).
    fn next(&mut self, node: usize, at: &str, strong: bool) -> String {
        let y = self.fresh();
        let inner = self.operand(node, 0, &y);
        let (quantifier, word) = if strong { ("ex1", "&") } else { ("all1", "=>") };
        format!("({quantifier} {y}: {y} = {at} + 1 {word} {inner})")
    }

    /// The right or only operand at some position from `at` on; the left one at all before it.
    fn until(&mut self, node: usize, at: &str, binary: bool) -> String {
        let y = self.fresh();
        let right = self.operand(node, binary as usize, &y);
        if !binary {
            return format!("(ex1 {y}: {at} <= {y} & {right})");
        }
        let z = self.fresh();
        let left = self.operand(node, 0, &z);
        format!("(ex1 {y}: {at} <= {y} & {right} & (all1 {z}: ({at} <= {z} & {z} < {y}) => {left}))")
    }

    /// The right or only operand at all positions from `at` on; or the left one at some before.
    fn release(&mut self, node: usize, at: &str, binary: bool) -> String {
        let y = self.fresh();
        let right = self.operand(node, binary as usize, &y);
        if !binary {
            return format!("(all1 {y}: {at} <= {y} => {right})");
        }
        let z = self.fresh();
        let left = self.operand(node, 0, &z);
        format!("(all1 {y}: {at} <= {y} => ({right} | (ex1 {z}: {at} <= {z} & {z} < {y} & {left})))")
    }

    /// Two operands with a word between.
    fn binary(&mut self, node: usize, at: &str, word: &str) -> String {
        let left = self.operand(node, 0, at);
        let right = self.operand(node, 1, at);
        format!("({left} {word} {right})")
    }

    /// A node's meaning at a position.
    fn formula(&mut self, node: usize, at: &str) -> String {
        match self.tree.nodes[node].mark {
            b'0' => "false".into(),
            b'1' => "true".into(),
            b'!' => format!("~{}", self.operand(node, 0, at)),
            b'&' => self.binary(node, at, "&"),
            b'|' => self.binary(node, at, "|"),
            b'>' => self.binary(node, at, "=>"),
            mark @ (b'X' | b'N') => self.next(node, at, mark == b'X'),
            mark @ (b'F' | b'U') => self.until(node, at, mark == b'U'),
            mark @ (b'G' | b'R') => self.release(node, at, mark == b'R'),
            name => format!("({at} in {})", (name as char).to_ascii_uppercase()),
        }
    }
}

/// The names of a signature as MONA's variables, the bits of a letter from bit 0 on.
pub fn variables(i: usize, o: usize) -> Vec<char> {
    "ABCD".chars().take(i).chain("PQRS".chars().take(o)).collect()
}

/// A whole input for MONA.
pub fn translate(rule: &Rule) -> String {
    let tree = read(&rule.text, Wording::rule(rule.i, rule.o)).expect("a rule that can be read");
    let formula = Writer { tree: &tree, bound: 0 }.formula(tree.root, "0");
    let names: Vec<String> = variables(rule.i, rule.o).iter().map(char::to_string).collect();
    format!("m2l-str;\nvar2 {};\n{formula};\n", names.join(", "))
}
