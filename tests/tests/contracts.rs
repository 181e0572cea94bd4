//! What is asked of every call that can be reached from outside: a contract that says something
//! of its result, on every input. Read off the sources of the crates.
//!
//! A public function has a row in `PROMISES`, and each of its `ensures` clauses is one promise, applied
//! to the result, the parameters and what is written. None has a `requires`.

use solver::signatures::{files, module_path, of_crates, of_source, tokens, Clause, Function};
use std::path::Path;

/// A public function, and the promise that each of its `ensures` clauses cites, in their order. A promise is the
/// beginning of what stands in the clause, or there after `result ≡` or `x.new ≡`: a name, and more where it says little.
type Row = (&'static str, &'static [&'static str]);

/// A new public function gets a row here.
const PROMISES: &[Row] = &[
    ("reader::reading::too_long", &["too_long"]),
    ("reader::reading::check", &["ReadingOf"]),
    ("reader::reading::read", &["ReadingOf", "Written"]),
    ("reader::vocabulary::Vocabulary::of", &["vocabulary_of"]),
    ("reader::refusal::Unreadable::refusal", &["text_refusal subject self"]),
    ("reader::refusal::Refusal::number", &["number_of"]),
    ("reader::refusal::Refusal::place", &["place_of"]),
    ("reader::refusal::Refusal::needed", &["needed_of"]),
    ("automaton::alphabet::bad_alphabet", &["bad_alphabet"]),
    ("automaton::alphabet::power", &["cond (leb k (2 * name_limit)) (2 ^ k) 0"]),
    (
        "automaton::alphabet::first_over",
        &["MatchOption result (first_over bound bytes.now ≡ length bytes.now) (λ k. (k ≡ first_over bound bytes.now) × (k < length bytes.now))"],
    ),
    ("automaton::construct::construct", &["Constructed"]),
    ("automaton::condition::read_condition", &["Conditioned"]),
    ("automaton::trial::try_rule", &["Tried"]),
    ("game::rule::solve_rule", &["RuleSolved"]),
    ("game::given::solve_given", &["GivenSolved"]),
    ("game::follow::Position::follow", &["FollowedBy"]),
    ("listing::list::list", &["Listed"]),
    ("listing::respond::respond", &["Responded"]),
    ("capi::airtable_solve_rule", &["RuleWritten"]),
    ("capi::airtable_solve_given", &["GivenWritten"]),
    ("capi::airtable_follow", &["StepWritten"]),
    ("capi::airtable_try_rule", &["TrialWritten"]),
];

/// Whether some tokens stand in others, one after the other.
fn has(tokens: &[String], part: &[&str]) -> bool {
    tokens.windows(part.len()).any(|window| window.iter().zip(part).all(|(token, word)| token == word))
}

/// Whether a token opens or closes a group.
fn step(token: &str) -> i32 {
    match token {
        "(" | "{" | "[" | "⌜" => 1,
        ")" | "}" | "]" | "⌝" => -1,
        _ => 0,
    }
}

/// The tokens of a group's own level, each inner group as one text.
fn level(tokens: &[String]) -> Vec<String> {
    let (mut parts, mut depth) = (Vec::<String>::new(), 0);
    for token in tokens {
        if depth > 0 {
            let last = parts.last_mut().unwrap();
            *last += " ";
            *last += token;
        } else {
            parts.push(token.clone());
        }
        depth += step(token);
    }
    parts
}

/// The side of an equation: the tokens up to the next connective or the end of the group, in the order in which they come.
fn side<'a>(tokens: impl Iterator<Item = &'a String>, way: i32) -> Vec<&'a String> {
    let mut depth = 0;
    let within = |token: &&String| {
        depth += way * step(token);
        depth > 0 || depth == 0 && !["×", "⊎", "→", "↔", ",", "≡"].contains(&token.as_str())
    };
    tokens.take_while(within).collect()
}

/// Whether some `X ≡ X` stands in the tokens, at any depth.
fn is_trivial(tokens: &[String]) -> bool {
    (0..tokens.len()).filter(|&k| tokens[k] == "≡").any(|k| {
        let left = side(tokens[..k].iter().rev(), -1);
        left.into_iter().rev().eq(side(tokens[k + 1..].iter(), 1))
    })
}

/// What is wrong with a clause that has to cite this promise.
fn clause_fault(function: &Function, clause: &Clause, promise: &str) -> Option<String> {
    if function.parameters.iter().any(|parameter| parameter.name == "result") {
        return Some("has a parameter in the place of the result".into());
    }
    let body = &clause.tokens[..];
    let stated = match body {
        [result, equals, stated @ ..] if [result, equals] == ["result", "≡"] => stated,
        [_, dot, new, equals, stated @ ..] if [dot, new, equals] == [".", "new", "≡"] => stated,
        _ => body,
    };
    if !stated.starts_with(&tokens(promise)) {
        return Some(format!("does not state {promise}"));
    }
    let plain =
        |part: &String| part.starts_with('(') || part == "." || part.chars().all(|c| c.is_alphanumeric() || c == '_');
    if let Some(part) = level(stated).iter().find(|&part| !plain(part)) {
        return Some(format!("states more or less than {promise}: {part}"));
    }
    if !has(body, &["result"]) && !has(body, &[".", "new"]) {
        return Some("names neither the result nor what is written".into());
    }
    is_trivial(body).then(|| "holds of everything: X ≡ X".into())
}

/// What is wrong with a function's contract as a whole, for the promises of its row.
fn contract_faults(function: &Function, promises: &[&str]) -> Vec<String> {
    let (ensures, others): (Vec<_>, Vec<_>) = function.clauses.iter().partition(|clause| clause.word == "ensures");
    let mut faults: Vec<String> = others.iter().map(|clause| format!("has a `{}`", clause.word)).collect();
    if ensures.len() != promises.len() {
        faults.push(format!("has {} `ensures`, and the row {} promises", ensures.len(), promises.len()));
    }
    let clauses = ensures.iter().zip(promises);
    faults.extend(clauses.filter_map(|(clause, promise)| clause_fault(function, clause, promise)));
    let named = |part: &[&str]| ensures.iter().any(|clause| has(&clause.tokens, part));
    if !function.returns.is_empty() && !named(&["result"]) {
        faults.push("says nothing of its result".into());
    }
    for parameter in &function.parameters {
        let name = parameter.name.as_str();
        let known = match &parameter.kind {
            kind if kind.starts_with("&mut ") => named(&[name, ".", "new"]),
            kind if kind.starts_with('&') => named(&[name, ".", "now"]),
            _ => named(&[name]),
        };
        if !known {
            faults.push(format!("says nothing of `{name}`"));
        }
    }
    faults
}

/// All that is wrong with some public functions, held against the rows.
fn faults(functions: &[Function], rows: &[Row]) -> Vec<String> {
    let mut faults = vec![];
    for function in functions {
        match rows.iter().find(|(path, _)| *path == function.path) {
            None => faults.push(format!("{}: no row has it", function.path)),
            Some((path, promises)) => {
                let found = contract_faults(function, promises);
                faults.extend(found.into_iter().map(|fault| format!("{path}: {fault}")));
            }
        }
    }
    let known = |path: &str| functions.iter().filter(|function| function.path == path).count();
    faults
        .extend(rows.iter().filter(|(path, _)| known(path) != 1).map(|(path, _)| format!("{path}: not one function")));
    faults
        .extend(rows.iter().filter(|(_, promises)| promises.is_empty()).map(|(path, _)| format!("{path}: no promise")));
    faults
}

#[test]
fn public_functions_keep_to_their_rows() {
    let functions = of_crates(&Path::new(env!("CARGO_MANIFEST_DIR")).join("../crates"));
    let faults = faults(&functions, PROMISES);
    assert!(faults.is_empty(), "{}", faults.join("\n"));
}

/// The faults of a source whose functions f, g and T::h have these rows.
fn seen(source: &str, rows: &[Row]) -> Vec<String> {
    faults(&of_source("m", source), rows)
}

/// A row for f with the promise P.
const F: &[Row] = &[("m::f", &["P"])];

#[test]
fn good_contracts_pass() {
    let sources = [
        "pub fn f(x: u8) -> u8\n    ensures { P x result }\n{\n    x\n}\n",
        "pub fn f(x: u8) -> u8 ensures { P x result } { x }",
        "pub fn f(x: u8) -> u8 ensures whole { result ≡ P x } { if x == b'{' { 1 } else { 0 } }",
        "// pub fn g() {}\npub extern \"C\" fn f(\n    x: &[u8],\n    y: &mut usize,\n) -> u8\n    // a word\n    \
         ensures { P x.now y.new result } // more\n{ 0 }",
        "pub const fn f(x_y: u8) -> u8 ensures { P «x_y» {- } -} result -- } requires\n } { 0 }",
        "pub fn f(x: &mut u8)\n    ensures { x.new ≡ P x.old }\n{\n    *x += 1;\n}\n",
        "pub fn f<'a, F: Fn(u64) -> Option<u8>>(x: F) -> &'a u8 ensures { P x result } { x(0) }",
        "pub(crate) fn g() -> u8 { 1 }\nfn h(x: u8) -> u8 requires { x ≡ x } { x }\npub fn f() -> u8 ensures { P result } { 0 }",
    ];
    for source in sources {
        assert_eq!(seen(source, F), Vec::<String>::new(), "{source}");
    }
}

#[test]
fn functions_without_a_contract_are_seen() {
    let sources = [
        "pub fn f(x: u8) -> u8 {\n    x\n}\n",
        "pub fn f(x: u8) -> u8\n{\n    x\n}\n",
        "pub fn f(\n    x: u8,\n) -> u8 {\n    x\n}\n",
        "pub fn f(x: u8) -> u8 { x }\nfn g(x: u8) -> u8\n    ensures { P x result }\n{ x }",
        "pub fn f(x: u8) -> u8 // ensures { P x result }\n{\n    x\n}\n",
        "pub fn f(x: u8) -> u8 /* ensures { P x result } */ {\n    x\n}\n",
        "pub fn f(x: u8) -> u8 {\n    // ensures { P x result }\n    x\n}\n",
        "pub fn f(x: u8) -> u8 {\n    let ensures = \"ensures { P x result }\";\n    x\n}\n",
        "pub extern \"C\" fn f(x: u8) -> u8 {\n    x\n}\n",
        "pub\nfn\nf(x: u8) -> u8 {\n    x\n}\n",
    ];
    for source in sources {
        let faults = seen(source, F);
        assert!(faults.iter().any(|fault| fault.contains("has 0 `ensures`")), "{source}{faults:?}");
    }
    let method = "pub struct T { pub x: u8 }\nimpl T {\n    pub fn h(self) -> u8 {\n        self.x\n    }\n}\n";
    assert_eq!(seen(method, &[("m::T::h", &["P"])]).len(), 3);
    let generic = "impl<'a> T<'a> {\n    pub fn h<F: Fn(u64) -> bool>(&self, x: F) -> u8 { 0 }\n}\n";
    assert_eq!(seen(generic, &[("m::T::h", &["P"])]).len(), 4);
    let module = "mod inner {\n    pub fn f(x: u8) -> u8 { x }\n}\n";
    assert_eq!(seen(module, &[("m::inner::f", &["P"])]).len(), 3);
    let through_a_trait = "impl Named for T {\n    fn h(x: u8) -> u8 { x }\n}\n";
    assert_eq!(seen(through_a_trait, &[("m::T::h", &["P"])]).len(), 3);
}

#[test]
fn contracts_that_say_too_little_are_seen() {
    let clauses = [
        ("result ≡ result", "does not state P"),
        ("Q x result", "does not state P"),
        ("x ≡ P x", "does not state P"),
        ("result ≡ Q (P x)", "does not state P"),
        ("Prefix x result", "does not state P"),
        ("Q x result {- P x result -}", "does not state P"),
        ("P x x", "neither the result"),
        ("P x (result ≡ result)", "X ≡ X"),
        ("P x (f result ≡ f result)", "X ≡ X"),
        ("P x result ⊎ ⊤", "states more or less"),
        ("P x result → P x result", "states more or less"),
        ("P x result × (x ≡ x)", "states more or less"),
        ("P x result ∨ (x ≡ x)", "states more or less"),
        ("⊥ → P x result", "does not state P"),
        ("(P x result)", "does not state P"),
        ("⌜ P x result ⌝", "does not state P"),
        ("λ x. P x x", "does not state P"),
        ("λ r. P x r", "does not state P"),
        ("", "does not state P"),
        ("P result", "says nothing of `x`"),
    ];
    for (clause, fault) in clauses {
        let source = format!("pub fn f(x: u8) -> u8\n    ensures {{ {clause} }}\n{{ x }}\n");
        let faults = seen(&source, F);
        assert!(faults.iter().any(|found| found.contains(fault)), "{clause}: {faults:?}");
    }
    let hidden = "pub fn f(result: u8) -> u8 ensures { P result } { result }";
    assert_eq!(seen(hidden, F), ["m::f: has a parameter in the place of the result"]);
    let written = "pub fn f(x: &mut u8) -> u8 ensures { P x.old result } { 0 }";
    assert_eq!(seen(written, F), ["m::f: says nothing of `x`"]);
    let read = "pub fn f(x: &[u8]) -> u8 ensures { P x result } { 0 }";
    assert_eq!(seen(read, F), ["m::f: says nothing of `x`"]);
    let unnamed = "pub fn f(x: u8) -> u8 ensures { P x _ } { x }";
    assert_eq!(
        seen(unnamed, F),
        ["m::f: names neither the result nor what is written", "m::f: says nothing of its result"]
    );
    let silent = "pub fn f(x: &mut u8) -> u8 ensures { P x.new } { 0 }";
    assert_eq!(seen(silent, F), ["m::f: says nothing of its result"]);
}

#[test]
fn requires_and_missing_rows_are_seen() {
    let asks = "pub fn f(x: u8) -> u8 requires { x ≡ 0 }\n    ensures { P x result }\n{ x }\n";
    assert_eq!(seen(asks, F), ["m::f: has a `requires`"]);
    let asks_later = "pub fn f(x: u8) -> u8\n    ensures { P x result }\n    requires small { x ≡ 0 }\n{ x }\n";
    assert_eq!(seen(asks_later, F), ["m::f: has a `requires`"]);
    let good = "pub fn f(x: u8) -> u8 ensures { P x result } { x }\n";
    assert_eq!(seen(good, &[]), ["m::f: no row has it"]);
    assert_eq!(seen(good, &[("m::f", &["P"]), ("m::g", &["P"])]), ["m::g: not one function"]);
    assert_eq!(seen(&good.repeat(2), F), ["m::f: not one function"]);
    assert_eq!(seen(good, &[("m::f", &["P", "Q"])]), ["m::f: has 1 `ensures`, and the row 2 promises"]);
    assert!(seen(good, &[("m::f", &[])]).contains(&"m::f: no promise".to_string()));
    assert_eq!(seen(good, &[("m::f", &["P x result"])]), Vec::<String>::new());
    assert_eq!(seen(good, &[("m::f", &["P result"])]), ["m::f: does not state P result"]);
}

#[test]
fn sources_in_nested_folders_are_found() {
    let root = std::env::temp_dir().join(format!("contracts-{}", std::process::id()));
    std::fs::create_dir_all(root.join("one/src/deep/deeper")).unwrap();
    std::fs::write(root.join("one/src/lib.rt"), "pub fn f() -> u8 { 1 }\n").unwrap();
    std::fs::write(root.join("one/src/deep/mod.rt"), "pub fn f() -> u8 { 1 }\n").unwrap();
    std::fs::write(root.join("one/src/deep/deeper/low.rt"), "pub fn f() -> u8 { 1 }\n").unwrap();
    let functions = of_crates(&root);
    std::fs::remove_dir_all(&root).unwrap();
    let paths: Vec<_> = functions.iter().map(|function| function.path.as_str()).collect();
    assert_eq!(paths, ["one::deep::deeper::low::f", "one::deep::f", "one::f"]);
    assert_eq!(faults(&functions, &[]).len(), 3);
    assert_eq!(module_path("one", Path::new("a/b.rt")), "one::a::b");
    assert!(files(Path::new(env!("CARGO_MANIFEST_DIR"))).len() > 20);
}
