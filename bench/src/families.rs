//! Families of rules that grow one thing at a time: the states at fixed letters and
//! operators, the letters at a fixed rule, the operators at fixed letters.

use crate::inputs::Rule;

/// Rules with five temporal operators and 4, 8, 16, 32, 60 and 128 states; found by search.
const STATES: [&str; 6] = [
    "((r|!s)R(G((!((aU(Nc))>Nq))&((!a)>(!b)))))>(d>s)",
    "b>!r&((Xs)R(N(!p)U(c)>(Xd|(!r))>q))",
    "(((q|(r))&(Xb))|(dUa))&(!s>NsU((rR(!c))|(!p)))",
    "(!(!(!b))>(!((qUc)>(r)))R((GpUr)Us&(d)))&(q>b)",
    "((!(!(b))Rr>(p)R!d)R!qR((Gs>a)&c))|!a",
    "((Gp|a)&(a>c))U((b|Gq)&(c|Gr)&(r|Gs))",
];

/// A rule of 29 states over one input and one output; found by search.
const FIXED: &str = "(!p)U!aR(X(XXa))";

/// A rule under the condition that every input meets, for every i. It leaves a small game: on these rules a solver by
/// ranks looks at each state at most twice.
fn rule(i: usize, o: usize, text: &str) -> Rule {
    Rule::new(i, o, "1", text.as_bytes())
}

/// Growing states, with 256 letters and five operators.
pub fn states() -> Vec<Rule> {
    STATES.iter().map(|text| rule(4, 4, text)).collect()
}

/// Growing letters: i + o from 2 to 8.
pub fn letters() -> Vec<Rule> {
    (2..=8).map(|names| rule(names / 2, names - names / 2, FIXED)).collect()
}

/// Growing operators at the same three states: F before F.
pub fn operators() -> Vec<Rule> {
    (1..=5).map(|count| rule(4, 4, &format!("{}p", "F".repeat(count)))).collect()
}

/// Growing operators with states that double: the family U over 64 letters.
pub fn untils() -> Vec<Rule> {
    (1..=5).map(|count| rule(4, 2, &"aUbUcUdUpUq"[..2 * count + 1])).collect()
}
