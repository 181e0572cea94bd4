//! A set of inputs, outputs or letters as a short formula over the names.
//!
//! Names that decide the set by themselves are split off first: `x & ..` or `x | ..`. What is left is written as a sum
//! of products of prime implicants, or as a product of sums by those of the complement. A negation stands before a
//! group where it saves marks.

use Tree::{All, Any, Literal, Not};

/// A formula: a name or its negation, a conjunction, a disjunction, or the negation of one of them.
#[derive(Clone, Debug, PartialEq)]
enum Tree {
    Literal(usize, bool),
    All(Vec<Tree>),
    Any(Vec<Tree>),
    Not(Box<Tree>),
}

/// A product of literals: the names that it has, and those of them that hold.
#[derive(Clone, Copy, Debug, PartialEq, Eq, PartialOrd, Ord)]
struct Cube {
    has: usize,
    on: usize,
}

/// How many places of a search for the best cover are looked at.
const SEARCH: usize = 300;

/// A short formula for a set: entry m is for the assignment in which names[j] holds iff bit j of m is 1.
pub fn short(set: &[bool], names: &[&str]) -> String {
    assert!(names.len() <= 8 && set.len() == 1 << names.len(), "one entry for each assignment");
    match (set.contains(&true), set.contains(&false)) {
        (true, true) => shown(&cheapest(&tree(set, (1 << names.len()) - 1), 0), names, 0),
        (full, _) => (full as u8).to_string(),
    }
}

/// A formula for a set that is neither empty nor full, over the names in `left`; the others make no difference in it.
fn tree(set: &[bool], left: usize) -> Tree {
    for name in (0..8).filter(|name| left >> name & 1 == 1) {
        for on in [true, false] {
            let half = |side: bool| (0..set.len()).filter(move |m| (m >> name & 1 == 1) == side);
            let rest = |side: bool| -> Vec<bool> {
                let kept = |m: usize| if side { m | 1 << name } else { m & !(1 << name) };
                (0..set.len()).map(|m| set[kept(m)]).collect()
            };
            if half(!on).all(|m| !set[m]) {
                return joined(true, Literal(name, on), &rest(on), left & !(1 << name));
            }
            if half(on).all(|m| set[m]) {
                return joined(false, Literal(name, on), &rest(!on), left & !(1 << name));
            }
        }
    }
    let other: Vec<bool> = set.iter().map(|is| !is).collect();
    let (sum, product) = (sum_of_products(set), flipped(&sum_of_products(&other)));
    if cost(&product, 0) < cost(&sum, 0) {
        product
    } else {
        sum
    }
}

/// A literal with what is left of a set, both needed or one enough.
fn joined(both: bool, literal: Tree, rest: &[bool], left: usize) -> Tree {
    if rest.contains(&true) != rest.contains(&false) {
        return literal;
    }
    let parts = match (both, tree(rest, left)) {
        (true, All(parts)) | (false, Any(parts)) => [vec![literal], parts].concat(),
        (_, part) => vec![literal, part],
    };
    if both {
        All(parts)
    } else {
        Any(parts)
    }
}

/// The formula of the complement, with negations only at the names.
fn flipped(tree: &Tree) -> Tree {
    match tree {
        Literal(name, on) => Literal(*name, !on),
        All(parts) => Any(parts.iter().map(flipped).collect()),
        Any(parts) => All(parts.iter().map(flipped).collect()),
        Not(part) => (**part).clone(),
    }
}

/// The formula with a negation before each group where that saves marks; `level` is how tight the mark around it binds.
fn cheapest(tree: &Tree, level: usize) -> Tree {
    let inner = |tree: &Tree| match tree {
        All(parts) => All(parts.iter().map(|part| cheapest(part, 2)).collect()),
        Any(parts) => Any(parts.iter().map(|part| cheapest(part, 1)).collect()),
        other => other.clone(),
    };
    if matches!(tree, Literal(..) | Not(_)) {
        return tree.clone();
    }
    let (plain, negated) = (inner(tree), Not(Box::new(inner(&flipped(tree)))));
    if cost(&negated, level) < cost(&plain, level) {
        negated
    } else {
        plain
    }
}

/// How many literals, negations and pairs of parentheses a formula has; `level` is how tight the mark around it binds.
fn cost(tree: &Tree, level: usize) -> usize {
    match tree {
        Literal(_, on) => 1 + !on as usize,
        All(parts) => (level > 2) as usize + parts.iter().map(|part| cost(part, 2)).sum::<usize>(),
        Any(parts) => (level > 1) as usize + parts.iter().map(|part| cost(part, 1)).sum::<usize>(),
        Not(part) => 1 + cost(part, 3),
    }
}

/// The formula's text; `level` is how tight the mark around it binds.
fn shown(tree: &Tree, names: &[&str], level: usize) -> String {
    let list = |parts: &[Tree], mark: &str, own: usize| {
        let text = parts.iter().map(|part| shown(part, names, own)).collect::<Vec<_>>().join(mark);
        if level > own {
            format!("({text})")
        } else {
            text
        }
    };
    match tree {
        Literal(name, true) => names[*name].to_string(),
        Literal(name, false) => format!("!{}", names[*name]),
        All(parts) => list(parts, " & ", 2),
        Any(parts) => list(parts, " | ", 1),
        Not(part) => format!("!{}", shown(part, names, 3)),
    }
}

/// A sum of few and short products for a set that is neither empty nor full.
fn sum_of_products(set: &[bool]) -> Tree {
    let primes = primes(set);
    let open: Vec<usize> = (0..set.len()).filter(|&m| set[m]).collect();
    let mut best = greedy(&primes, &open);
    let mut left = SEARCH;
    search(&primes, &open, &mut vec![], &mut best, &mut left);
    best.sort_by_key(|cube| literals(*cube));
    let mut products: Vec<Tree> = best.iter().map(|cube| product(*cube)).collect();
    if products.len() == 1 {
        products.remove(0)
    } else {
        Any(products)
    }
}

impl Cube {
    /// Whether the product holds for an assignment.
    fn holds(self, m: usize) -> bool {
        m & self.has == self.on
    }

    /// Its literals and negations.
    fn cost(self) -> usize {
        (self.has.count_ones() + (self.has & !self.on).count_ones()) as usize
    }
}

/// The literals of a product, in the order of the names; those that hold come first.
fn literals(cube: Cube) -> Vec<(usize, bool)> {
    (0..8).filter(|name| cube.has >> name & 1 == 1).map(|name| (name, cube.on >> name & 1 == 0)).collect()
}

/// A product as a formula.
fn product(cube: Cube) -> Tree {
    let mut parts: Vec<Tree> = literals(cube).iter().map(|&(name, off)| Literal(name, !off)).collect();
    if parts.len() == 1 {
        parts.remove(0)
    } else {
        All(parts)
    }
}

/// The products that imply the set and of which no shorter part does: each list has those with one literal less than
/// the one before.
fn primes(set: &[bool]) -> Vec<Cube> {
    let all = set.len() - 1;
    let mut cubes: Vec<Cube> = (0..set.len()).filter(|&m| set[m]).map(|on| Cube { has: all, on }).collect();
    let mut primes = vec![];
    while !cubes.is_empty() {
        let mut shorter = vec![];
        for cube in &cubes {
            let mut prime = true;
            for bit in (0..8).map(|name| 1 << name).filter(|bit| cube.has & bit != 0) {
                if cubes.binary_search(&Cube { has: cube.has, on: cube.on ^ bit }).is_ok() {
                    prime = false;
                    shorter.push(Cube { has: cube.has & !bit, on: cube.on & !bit });
                }
            }
            if prime {
                primes.push(*cube);
            }
        }
        shorter.sort();
        shorter.dedup();
        cubes = shorter;
    }
    primes
}

/// A cover: the products without which an assignment is not covered, then the one that covers most of what is left for
/// its length.
fn greedy(primes: &[Cube], open: &[usize]) -> Vec<Cube> {
    let mut chosen: Vec<Cube> = vec![];
    for &m in open {
        let mut over = primes.iter().filter(|cube| cube.holds(m));
        if let (Some(only), None) = (over.next(), over.next()) {
            if !chosen.contains(only) {
                chosen.push(*only);
            }
        }
    }
    loop {
        let left: Vec<usize> = open.iter().copied().filter(|&m| !chosen.iter().any(|cube| cube.holds(m))).collect();
        if left.is_empty() {
            break;
        }
        let gain = |cube: &Cube| left.iter().filter(|&&m| cube.holds(m)).count();
        let better = |a: &&Cube, b: &&Cube| (gain(a) * b.cost()).cmp(&(gain(b) * a.cost())).then(b.cmp(a));
        chosen.push(*primes.iter().max_by(better).expect("the primes cover the set"));
    }
    for at in (0..chosen.len()).rev() {
        let needed = |m: &usize| !chosen.iter().enumerate().any(|(k, cube)| k != at && cube.holds(*m));
        if !open.iter().any(needed) {
            chosen.remove(at);
        }
    }
    chosen
}

/// Looks for a cheaper cover: each product over the assignment with the fewest is tried in turn, as long as places are
/// left.
fn search(primes: &[Cube], open: &[usize], chosen: &mut Vec<Cube>, best: &mut Vec<Cube>, left: &mut usize) {
    let total = |cubes: &[Cube]| cubes.iter().map(|cube| cube.cost()).sum::<usize>();
    if open.is_empty() && total(chosen) < total(best) {
        best.clone_from(chosen);
    }
    if open.is_empty() || *left == 0 {
        return;
    }
    *left -= 1;
    let over = |m: usize| primes.iter().filter(move |cube| cube.holds(m));
    let hardest = *open.iter().min_by_key(|&&m| over(m).count()).expect("something is open");
    for cube in over(hardest) {
        if total(chosen) + cube.cost() < total(best) {
            let rest: Vec<usize> = open.iter().copied().filter(|&m| !cube.holds(m)).collect();
            chosen.push(*cube);
            search(primes, &rest, chosen, best, left);
            chosen.pop();
        }
    }
}
