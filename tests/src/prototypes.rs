//! The C declarations of include/airtable.h, read from its text: the prototypes, the numbers
//! that it names, and the prototypes again as Rust declarations. What it cannot read is a panic.
//! build.rs uses this file too.

use std::fmt;

/// A function's name, parameters and result.
#[derive(Clone, Debug, PartialEq, Eq)]
pub struct Prototype {
    pub name: String,
    pub returns: Type,
    pub parameters: Vec<(Type, String)>,
}

/// A number, or a pointer to numbers that are only read or may be written.
#[derive(Clone, Copy, Debug, PartialEq, Eq)]
pub struct Type {
    pub base: Base,
    pub form: Form,
}

/// The numbers of the header.
#[derive(Clone, Copy, Debug, PartialEq, Eq)]
pub enum Base {
    U8,
    U16,
    Size,
}

/// How a number is handed over.
#[derive(Clone, Copy, Debug, PartialEq, Eq)]
pub enum Form {
    Value,
    Read,
    Written,
}

/// The names of the numbers in C and in Rust.
const BASES: [(Base, &str, &str); 3] =
    [(Base::U8, "uint8_t", "u8"), (Base::U16, "uint16_t", "u16"), (Base::Size, "size_t", "usize")];

impl Type {
    /// The type as it stands in Rust.
    pub fn rust(self) -> String {
        let name = BASES.iter().find(|&&(base, _, _)| base == self.base).unwrap().2;
        match self.form {
            Form::Value => name.to_string(),
            Form::Read => format!("*const {name}"),
            Form::Written => format!("*mut {name}"),
        }
    }
}

impl fmt::Display for Type {
    fn fmt(&self, out: &mut fmt::Formatter) -> fmt::Result {
        let name = BASES.iter().find(|&&(base, _, _)| base == self.base).unwrap().1;
        match self.form {
            Form::Value => write!(out, "{name} "),
            Form::Read => write!(out, "const {name} *"),
            Form::Written => write!(out, "{name} *"),
        }
    }
}

impl fmt::Display for Prototype {
    fn fmt(&self, out: &mut fmt::Formatter) -> fmt::Result {
        let parameters: Vec<_> = self.parameters.iter().map(|(kind, name)| format!("{kind}{name}")).collect();
        write!(out, "{}{}({});", self.returns, self.name, parameters.join(", "))
    }
}

/// The header without comments.
fn without_comments(header: &str) -> String {
    let mut rest = header;
    let mut text = String::new();
    while let Some((before, comment)) = rest.split_once("/*") {
        text += before;
        text.push(' ');
        rest = comment.split_once("*/").expect("a comment without an end").1;
    }
    text + rest
}

/// The prototypes, in their order.
pub fn prototypes(header: &str) -> Vec<Prototype> {
    let text = without_comments(header).replace("\\\n", " ");
    let code: Vec<_> = text.lines().filter(|line| !line.trim_start().starts_with('#')).collect();
    let code = code.join(" ").replace("extern \"C\" {", " ").replace('}', " ");
    let (declarations, rest) = code.rsplit_once(';').expect("a header without a declaration");
    assert!(rest.trim().is_empty(), "no semicolon after {rest}");
    declarations.split(';').map(prototype).collect()
}

/// One prototype: `TYPE NAME(TYPE NAME, ..)`.
fn prototype(text: &str) -> Prototype {
    let (head, rest) = text.split_once('(').unwrap_or_else(|| panic!("not a prototype: {text}"));
    let inner = rest.trim().strip_suffix(')').unwrap_or_else(|| panic!("not a prototype: {text}"));
    let (returns, name) = declared(head);
    Prototype { name, returns, parameters: inner.split(',').map(declared).collect() }
}

/// A type and the name that is declared with it.
fn declared(text: &str) -> (Type, String) {
    let spaced = text.replace('*', " * ");
    let words: Vec<_> = spaced.split_whitespace().collect();
    let (base, form, name) = match words[..] {
        ["const", base, "*", name] => (base, Form::Read, name),
        [base, "*", name] => (base, Form::Written, name),
        [base, name] => (base, Form::Value, name),
        _ => panic!("not a declaration: {text}"),
    };
    let known = BASES.iter().find(|&&(_, c, _)| c == base);
    (Type { base: known.unwrap_or_else(|| panic!("the type of {text} is unknown")).0, form }, name.to_string())
}

/// The macros that stand for a number, with their numbers, in their order.
pub fn constants(header: &str) -> Vec<(String, usize)> {
    let text = without_comments(header);
    let defined = text.lines().filter_map(|line| line.strip_prefix("#define "));
    let words = defined.map(|line| line.split_whitespace().collect::<Vec<_>>());
    words
        .filter(|words| words.len() == 2)
        .filter_map(|words| Some((words[0].to_string(), words[1].parse().ok()?)))
        .collect()
}

/// The prototypes as declarations of Rust.
pub fn rust_declarations(prototypes: &[Prototype]) -> String {
    let mut text = String::from("extern \"C\" {\n");
    for Prototype { name, returns, parameters } in prototypes {
        let parameters: Vec<_> = parameters.iter().map(|(kind, name)| format!("{name}: {}", kind.rust())).collect();
        text += &format!("    pub fn {name}({}) -> {};\n", parameters.join(", "), returns.rust());
    }
    text + "}\n"
}
