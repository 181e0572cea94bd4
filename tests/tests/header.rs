//! Include/airtable.h held against what it declares: its prototypes against the signatures in
//! crates/capi/src/lib.rt, its names of the refusals against the definition of their numbers, and the orders of refusals at
//! its calls against the specification.

use solver::prototypes::{constants, prototypes, rust_declarations, Base, Form, Prototype, Type};
use solver::signatures::{of_source, Function};
use std::collections::BTreeSet;
use std::path::Path;

/// A file of the repository.
fn file(path: &str) -> String {
    std::fs::read_to_string(Path::new(env!("CARGO_MANIFEST_DIR")).join("..").join(path)).unwrap()
}

/// The functions that the library hands to C.
fn library() -> Vec<Function> {
    of_source("capi", &file("crates/capi/src/lib.rt"))
}

/// The prototypes of the header.
fn header() -> Vec<Prototype> {
    prototypes(&file("include/airtable.h"))
}

/// What C hands over for a parameter: a number, a pointer, or for a slice a pointer and its length.
fn passed(name: &str, kind: &str) -> Vec<(Type, String)> {
    let number = |base, form| (Type { base, form }, name.to_string());
    let length = (Type { base: Base::Size, form: Form::Value }, format!("{name}_length"));
    match kind {
        "usize" => vec![number(Base::Size, Form::Value)],
        "u8" => vec![number(Base::U8, Form::Value)],
        "u16" => vec![number(Base::U16, Form::Value)],
        "&mut u8" => vec![number(Base::U8, Form::Written)],
        "&mut usize" => vec![number(Base::Size, Form::Written)],
        "&[u8]" => vec![number(Base::U8, Form::Read), length],
        "&mut [u8]" => vec![number(Base::U8, Form::Written), length],
        _ => panic!("no C type is known for {name}: {kind}"),
    }
}

/// The prototype that a function has in C.
fn in_c(function: &Function) -> Prototype {
    let parameters =
        function.parameters.iter().flat_map(|parameter| passed(&parameter.name, &parameter.kind)).collect();
    let [(returns, _)] = passed("", &function.returns)[..] else { panic!("{} returns no number", function.path) };
    Prototype { name: function.name().to_string(), returns, parameters }
}

/// The prototypes that only one of the two sides has, as C writes them.
fn differences(header: &[Prototype], library: &[Function]) -> Vec<String> {
    let header: Vec<_> = header.iter().map(Prototype::to_string).collect();
    let library: Vec<_> = library.iter().map(|function| in_c(function).to_string()).collect();
    let only = |some: &[String], others: &[String], side: &str| {
        let missing = some.iter().filter(|&text| others.iter().filter(|&other| other == text).count() != 1);
        missing.map(|text| format!("{side}: {text}")).collect::<Vec<_>>()
    };
    [only(&header, &library, "header"), only(&library, &header, "library")].concat()
}

#[test]
fn prototypes_are_the_librarys() {
    assert_eq!(differences(&header(), &library()), Vec::<String>::new());
    assert_eq!(header().len(), 4);
}

#[test]
fn every_swap_in_a_prototype_is_seen() {
    let mut tried = 0;
    for (f, prototype) in header().iter().enumerate() {
        for (k, pair) in prototype.parameters.windows(2).enumerate() {
            let mut swapped = header();
            swapped[f].parameters.swap(k, k + 1);
            assert_eq!(differences(&swapped, &library()).len(), 2, "{pair:?}");
            let mut renamed = header();
            renamed[f].parameters[k].1 = pair[1].1.clone();
            renamed[f].parameters[k + 1].1 = pair[0].1.clone();
            assert_eq!(differences(&renamed, &library()).len(), 2, "{pair:?}");
            tried += 1;
        }
    }
    assert_eq!(tried, 18 + 16 + 14 + 7);
}

#[test]
fn every_swap_in_a_signature_is_seen() {
    let mut tried = 0;
    for (f, function) in library().iter().enumerate() {
        for k in 1..function.parameters.len() {
            let mut swapped = library();
            swapped[f].parameters.swap(k - 1, k);
            assert_eq!(differences(&header(), &swapped).len(), 2, "{:?}", function.parameters[k]);
            tried += 1;
        }
    }
    assert_eq!(tried, 12 + 12 + 11 + 5);
}

#[test]
fn other_changes_of_the_header_are_seen() {
    let text = file("include/airtable.h");
    let changes = [
        ("size_t i, size_t o, uint8_t mode, size_t n,", "size_t o, size_t i, uint8_t mode, size_t n,"),
        ("size_t i, size_t o, const uint8_t *rule", "size_t o, size_t i, const uint8_t *rule"),
        ("const uint8_t *letters,", "uint8_t *letters,"),
        ("uint8_t *can, size_t *n,", "uint8_t *can, const size_t *n,"),
        ("uint8_t *can, size_t *n, size_t *round,", "uint8_t *can, size_t *n,"),
        ("uint8_t *can, size_t *round,", "uint8_t *can, uint8_t *round,"),
        ("uint16_t mask", "uint8_t mask"),
        ("uint8_t *satisfied, size_t *place", "uint8_t *satisfied, size_t place"),
        ("uint8_t airtable_follow", "size_t airtable_follow"),
        ("uint8_t airtable_follow", "uint8_t airtable_go"),
        ("size_t input, ", ""),
        ("uint8_t airtable_try_rule", "uint8_t airtable_more(size_t i);\nuint8_t airtable_try_rule"),
    ];
    for (old, new) in changes {
        assert_eq!(text.matches(old).count(), 1, "{old}");
        assert!(!differences(&prototypes(&text.replace(old, new)), &library()).is_empty(), "{old}");
    }
    assert!(!differences(&header()[1..], &library()).is_empty());
    assert!(!differences(&header(), &library()[1..]).is_empty());
}

#[test]
fn rust_declarations_follow_the_header() {
    let text =
        "#ifdef X\nextern \"C\" {\n#endif\n/* uint8_t no(size_t a); */\nuint8_t yes(size_t a,\n    const uint8_t *b, \
                uint16_t c, uint8_t *d, size_t *e);\n#ifdef X\n}\n#endif\n";
    let wanted =
        "extern \"C\" {\n    pub fn yes(a: usize, b: *const u8, c: u16, d: *mut u8, e: *mut usize) -> u8;\n}\n";
    assert_eq!(rust_declarations(&prototypes(text)), wanted);
}

/// A name of the definitions as C writes it: `RuleText` is `RULE_TEXT`.
fn in_capitals(name: &str) -> String {
    let letters =
        name.char_indices().map(|(k, c)| if k > 0 && c.is_uppercase() { format!("_{c}") } else { c.to_string() });
    letters.collect::<String>().to_uppercase()
}

/// The equations of a definition: what stands behind its name, and behind the sign.
fn equations<'a>(definitions: &'a str, name: &str) -> Vec<(&'a str, &'a str)> {
    let after = |line: &'a str| line.strip_prefix(name)?.strip_prefix(' ')?.split_once(" = ");
    definitions.lines().filter_map(after).collect()
}

/// The one number that a definition has where nothing is refused.
fn served(definitions: &str, name: &str, pattern: &str) -> usize {
    let found: Vec<_> = equations(definitions, name).into_iter().filter(|(case, _)| *case == pattern).collect();
    let [(_, number)] = found[..] else { panic!("{name} {pattern}: {found:?}") };
    number.parse().unwrap()
}

/// The cases of `number_of` with their numbers, by their names in C, and what a served call has: where no refusal comes first,
/// and as an answer that is none.
fn numbers(definitions: &str) -> BTreeSet<(String, usize)> {
    let case = |pattern: &str| pattern.trim_matches(['(', ')']).split(' ').next().unwrap().to_string();
    let refused = equations(definitions, "number_of").into_iter().map(|(pattern, number)| {
        (format!("AIRTABLE_REFUSED_{}", in_capitals(&case(pattern))), number.parse().unwrap())
    });
    let unrefused = [("first_number", "None"), ("answer_number", "(Ok t)")];
    let served = unrefused.map(|(name, pattern)| ("AIRTABLE_SERVED".to_string(), served(definitions, name, pattern)));
    refused.chain(served).collect()
}

/// The names of the returned numbers in a header.
fn refusals(header: &str) -> BTreeSet<(String, usize)> {
    let returned = |name: &str| name == "AIRTABLE_SERVED" || name.starts_with("AIRTABLE_REFUSED_");
    constants(header).into_iter().filter(|(name, _)| returned(name)).collect()
}

#[test]
fn refusals_have_their_numbers() {
    let (definitions, text) = (file("crates/reader/specs/Refusal.antt"), file("include/airtable.h"));
    let wanted = numbers(&definitions);
    assert_eq!(refusals(&text), wanted);
    // 14 is the program's alone.
    let all: BTreeSet<usize> = (0..14).chain([15]).collect();
    assert_eq!(wanted.iter().map(|(_, number)| *number).collect::<BTreeSet<_>>(), all);
    assert!(wanted.contains(&("AIRTABLE_REFUSED_CONDITION_TEXT".into(), 7)));
    assert!(wanted.contains(&("AIRTABLE_REFUSED_UNSATISFIABLE".into(), 15)));
    assert!(wanted.contains(&("AIRTABLE_SERVED".into(), 0)));
    for old in ["first_number None = 0\n", "answer_number (Ok t) = 0\n"] {
        assert_eq!(definitions.matches(old).count(), 1, "{old}");
        assert_ne!(refusals(&text), numbers(&definitions.replace(old, &old.replace(" = 0", " = 16"))));
    }
    let swapped = text.replace("RULE_NODES 5", "RULE_NODES 6").replace("RULE_OPERATORS 6", "RULE_OPERATORS 5");
    assert_ne!(refusals(&swapped), wanted);
    for line in ["#define AIRTABLE_REFUSED_MOVE 11\n", "#define AIRTABLE_REFUSED_UNSATISFIABLE 15\n"] {
        assert_ne!(refusals(&text.replace(line, "")), wanted);
    }
}

/// The orders of refusals that stand at the calls of a header.
fn header_orders(header: &str) -> Vec<String> {
    let text = header.replace("\n *", "");
    let orders = text.split("Refusals in this order: ").skip(1);
    orders.map(|rest| rest.split('.').next().unwrap().replace("then ", "")).collect()
}

/// The orders of the library's calls in the specification's table.
fn specified_orders(specification: &str) -> Vec<String> {
    let rows = specification.lines().skip_while(|line| *line != "| Call | Order |").skip(2).take(4);
    rows.map(|row| row.trim_matches(['|', ' ']).split_once(" | ").unwrap().1.to_string()).collect()
}

#[test]
fn orders_are_the_specifications() {
    let (text, wanted) = (file("include/airtable.h"), specified_orders(&file("docs/SPECIFICATION.md")));
    assert_eq!(header_orders(&text), wanted);
    assert_eq!(wanted[..2], ["1, 2, 4, 5, 6, 7, 8, 15, 9, 3", "1, 10, 3, 12, 11, 13, 15"]);
    assert_ne!(header_orders(&text.replace("8, 15, 9, 3", "8, 9, 15, 3")), wanted);
}
