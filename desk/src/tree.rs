//! An accepted formula as a tree, for showing it. The engine alone decides what is accepted.

/// A formula. A name is the engine's byte: `a` to `d`, `p` to `s`.
#[derive(Clone, Debug, PartialEq, Eq)]
pub enum Tree {
    False,
    True,
    Name(u8),
    Not(Box<Tree>),
    Next(Box<Tree>),
    WeakNext(Box<Tree>),
    Eventually(Box<Tree>),
    Always(Box<Tree>),
    Until(Box<Tree>, Box<Tree>),
    Release(Box<Tree>, Box<Tree>),
    And(Box<Tree>, Box<Tree>),
    Or(Box<Tree>, Box<Tree>),
    Implies(Box<Tree>, Box<Tree>),
}

/// The infix operators' levels from the loosest to the tightest; all group to the right.
const LEVELS: [&[u8]; 4] = [b">", b"|", b"&", b"UR"];

/// The tree of a text of the engine, or nothing where it is none.
pub fn parse(text: &str) -> Option<Tree> {
    let marks: Vec<u8> = text.bytes().filter(|&byte| byte != b' ').collect();
    let mut rest = &marks[..];
    let tree = infix(&mut rest, &LEVELS)?;
    rest.is_empty().then_some(tree)
}

/// Takes the next mark.
fn take(rest: &mut &[u8]) -> Option<u8> {
    let (&mark, after) = rest.split_first()?;
    *rest = after;
    Some(mark)
}

/// Reads one level of infix operators: an operand of the tighter levels, and where an operator of this level follows,
/// the level again.
fn infix(rest: &mut &[u8], levels: &[&[u8]]) -> Option<Tree> {
    let Some((own, tighter)) = levels.split_first() else { return prefix(rest) };
    let left = infix(rest, tighter)?;
    match rest.first() {
        Some(mark) if own.contains(mark) => {
            let mark = take(rest)?;
            joined(mark, left, infix(rest, levels)?)
        }
        _ => Some(left),
    }
}

/// Reads a prefix operator with its operand, a name, a constant, or a formula in parentheses.
fn prefix(rest: &mut &[u8]) -> Option<Tree> {
    let mark = take(rest)?;
    match mark {
        b'0' => Some(Tree::False),
        b'1' => Some(Tree::True),
        b'a'..=b'd' | b'p'..=b's' => Some(Tree::Name(mark)),
        b'(' => {
            let inner = infix(rest, &LEVELS)?;
            (take(rest)? == b')').then_some(inner)
        }
        b'!' | b'X' | b'N' | b'F' | b'G' => {
            let operand = Box::new(prefix(rest)?);
            Some(match mark {
                b'!' => Tree::Not(operand),
                b'X' => Tree::Next(operand),
                b'N' => Tree::WeakNext(operand),
                b'F' => Tree::Eventually(operand),
                _ => Tree::Always(operand),
            })
        }
        _ => None,
    }
}

/// Two operands with the infix operator between them.
fn joined(mark: u8, left: Tree, right: Tree) -> Option<Tree> {
    let (left, right) = (Box::new(left), Box::new(right));
    match mark {
        b'U' => Some(Tree::Until(left, right)),
        b'R' => Some(Tree::Release(left, right)),
        b'&' => Some(Tree::And(left, right)),
        b'|' => Some(Tree::Or(left, right)),
        b'>' => Some(Tree::Implies(left, right)),
        _ => None,
    }
}

impl Tree {
    /// The engine's text, with every operator's operands in parentheses.
    pub fn text(&self) -> String {
        match self {
            Tree::False => "0".into(),
            Tree::True => "1".into(),
            Tree::Name(byte) => (*byte as char).into(),
            Tree::Not(x) => format!("!({})", x.text()),
            Tree::Next(x) => format!("X({})", x.text()),
            Tree::WeakNext(x) => format!("N({})", x.text()),
            Tree::Eventually(x) => format!("F({})", x.text()),
            Tree::Always(x) => format!("G({})", x.text()),
            Tree::Until(x, y) => format!("({})U({})", x.text(), y.text()),
            Tree::Release(x, y) => format!("({})R({})", x.text(), y.text()),
            Tree::And(x, y) => format!("({})&({})", x.text(), y.text()),
            Tree::Or(x, y) => format!("({})|({})", x.text(), y.text()),
            Tree::Implies(x, y) => format!("({})>({})", x.text(), y.text()),
        }
    }
}
