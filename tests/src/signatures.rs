//! The public functions of Rattle sources, read by their tokens and so whatever the layout:
//! name, parameters, result, and the clauses of the contract. What it cannot read is a panic.

use std::fs;
use std::path::{Path, PathBuf};

/// A function that other crates can call.
#[derive(Clone, Debug)]
pub struct Function {
    /// Crate, modules, type of a method, and name: `game::follow::Position::follow`.
    pub path: String,
    pub parameters: Vec<Parameter>,
    pub returns: String,
    pub clauses: Vec<Clause>,
}

/// A parameter; `self` has the type `Self`, `&Self` or `&mut Self`.
#[derive(Clone, Debug, PartialEq, Eq)]
pub struct Parameter {
    pub name: String,
    pub kind: String,
}

/// A clause of a contract: `ensures` or `requires`, and the tokens between its braces.
#[derive(Clone, Debug)]
pub struct Clause {
    pub word: String,
    pub tokens: Vec<String>,
}

impl Function {
    /// The last part of the path.
    pub fn name(&self) -> &str {
        self.path.rsplit("::").next().unwrap()
    }
}

/// The public functions of all crates below a folder.
pub fn of_crates(crates: &Path) -> Vec<Function> {
    let mut functions = vec![];
    for folder in entries(crates) {
        let root = folder.join("src");
        let name = folder.file_name().unwrap().to_str().unwrap().to_string();
        for file in files(&root) {
            let source = fs::read_to_string(&file).unwrap();
            functions.extend(of_source(&module_path(&name, file.strip_prefix(&root).unwrap()), &source));
        }
    }
    functions
}

/// The entries of a folder, in the order of their names.
fn entries(folder: &Path) -> Vec<PathBuf> {
    let mut entries: Vec<_> = fs::read_dir(folder).unwrap().map(|entry| entry.unwrap().path()).collect();
    entries.sort();
    entries
}

/// All sources in a folder and in those below it.
pub fn files(folder: &Path) -> Vec<PathBuf> {
    let inside = entries(folder).into_iter();
    inside.flat_map(|path| if path.is_dir() { files(&path) } else { vec![path] }).collect()
}

/// The path of the module that a file holds: `lib.rt`, `main.rt` and `mod.rt` stand for their folder.
pub fn module_path(crate_name: &str, file: &Path) -> String {
    let whole = file.with_extension("");
    let parts = whole.iter().map(|part| part.to_str().unwrap());
    let named = parts.filter(|part| !["lib", "main", "mod"].contains(part));
    std::iter::once(crate_name).chain(named).collect::<Vec<_>>().join("::")
}

/// The public functions of one source, whose module has this path.
pub fn of_source(path: &str, source: &str) -> Vec<Function> {
    let mut found = vec![];
    let mut reader = Reader { chars: source.chars().collect(), at: 0 };
    reader.items(path, false, &mut found);
    assert!(reader.at == reader.chars.len(), "{path}: a brace too many");
    found
}

/// The tokens of a text of contracts.
pub fn tokens(text: &str) -> Vec<String> {
    let mut reader = Reader { chars: text.chars().collect(), at: 0 };
    std::iter::from_fn(|| reader.token(Language::Contract)).collect()
}

/// Code and contracts have comments of their own.
#[derive(Clone, Copy, PartialEq)]
enum Language {
    Code,
    Contract,
}

use Language::*;

/// A place in a source.
struct Reader {
    chars: Vec<char>,
    at: usize,
}

/// Whether a name or a number can have this character.
fn is_word(c: char) -> bool {
    c.is_alphanumeric() || c == '_'
}

impl Reader {
    /// Whether the source goes on with this text.
    fn begins(&self, text: &str) -> bool {
        text.chars().enumerate().all(|(k, c)| self.chars.get(self.at + k) == Some(&c))
    }

    /// Goes to the end of the first such text from here, or to the end of the source.
    fn pass(&mut self, end: &str) {
        while self.at < self.chars.len() && !self.begins(end) {
            self.at += 1;
        }
        self.at = (self.at + end.chars().count()).min(self.chars.len());
    }

    /// Goes over a comment that may hold others.
    fn pass_nested(&mut self, open: &str, close: &str) {
        let mut depth = 0;
        loop {
            assert!(self.at < self.chars.len(), "a comment without an end");
            if self.begins(open) {
                depth += 1;
                self.at += 2;
            } else if self.begins(close) {
                depth -= 1;
                self.at += 2;
                if depth == 0 {
                    return;
                }
            } else {
                self.at += 1;
            }
        }
    }

    /// Goes over blanks and comments.
    fn pass_blanks(&mut self, language: Language) {
        while self.at < self.chars.len() {
            if self.chars[self.at].is_whitespace() {
                self.at += 1;
            } else if self.begins("//") || language == Contract && self.begins("--") {
                self.pass("\n");
            } else if self.begins("/*") {
                self.pass_nested("/*", "*/");
            } else if language == Contract && self.begins("{-") {
                self.pass_nested("{-", "-}");
            } else {
                return;
            }
        }
    }

    /// Goes over a literal in quotation marks; the first stands here.
    fn pass_literal(&mut self, quote: char) {
        self.at += 1;
        while self.chars[self.at] != quote {
            self.at += if self.chars[self.at] == '\\' { 2 } else { 1 };
        }
        self.at += 1;
    }

    /// Whether a character literal begins here, and no label or lifetime.
    fn at_character(&self) -> bool {
        self.begins("'\\") || self.begins("'") && self.chars.get(self.at + 2) == Some(&'\'')
    }

    /// The next token: a word, a literal, `->`, `::`, or one other character.
    fn token(&mut self, language: Language) -> Option<String> {
        self.pass_blanks(language);
        let from = self.at;
        let &first = self.chars.get(from)?;
        if language == Contract && "«»".contains(first) {
            self.at += 1;
            return self.token(language);
        }
        if self.begins("\"") || self.begins("b\"") {
            self.at += usize::from(first == 'b');
            self.pass_literal('"');
        } else if language == Code && (self.begins("b'") || self.at_character()) {
            self.at += usize::from(first == 'b');
            self.pass_literal('\'');
        } else if self.begins("->") || self.begins("::") {
            self.at += 2;
        } else {
            self.at += 1;
            let inner = |c: char| is_word(c) || language == Contract && c == '\'';
            while is_word(first) && self.chars.get(self.at).is_some_and(|&c| inner(c)) {
                self.at += 1;
            }
        }
        Some(self.chars[from..self.at].iter().collect())
    }

    /// The next token, which stays.
    fn peek(&mut self) -> String {
        let from = self.at;
        let token = self.token(Code);
        self.at = from;
        token.unwrap_or_default()
    }

    /// The next token, which has to be there.
    fn some(&mut self) -> String {
        self.token(Code).expect("the source ends too early")
    }

    /// The tokens up to the bracket that closes the one just read, which is left out.
    fn inside(&mut self, language: Language) -> Vec<String> {
        let (mut tokens, mut depth) = (vec![], 1);
        loop {
            let token = self.token(language).expect("a bracket without an end");
            match token.as_str() {
                "(" | "[" | "{" => depth += 1,
                ")" | "]" | "}" => depth -= 1,
                _ => {}
            }
            if depth == 0 {
                return tokens;
            }
            tokens.push(token);
        }
    }

    /// The tokens before the next one of these, which stays.
    fn until(&mut self, ends: &[&str]) -> Vec<String> {
        let mut tokens = vec![];
        while !ends.contains(&self.peek().as_str()) {
            let token = self.some();
            let opens = ["(", "["].contains(&token.as_str());
            tokens.push(token);
            if opens {
                let close = if tokens.last().unwrap() == "(" { ")" } else { "]" };
                tokens.extend(self.inside(Code));
                tokens.push(close.to_string());
            }
        }
        tokens
    }

    /// Goes over the generic parameters that begin here, if any; `->` is a token of its own and closes none.
    fn pass_generics(&mut self) {
        if self.peek() != "<" {
            return;
        }
        let mut depth = 0;
        loop {
            match self.some().as_str() {
                "<" => depth += 1,
                ">" => depth -= 1,
                _ => {}
            }
            if depth == 0 {
                return;
            }
        }
    }

    /// The items up to a closing brace or the end; `open` where all functions are public, as in `impl Trait for`.
    fn items(&mut self, path: &str, open: bool, found: &mut Vec<Function>) {
        let mut public = open;
        while let Some(token) = self.token(Code) {
            match token.as_str() {
                "}" => return,
                "pub" if self.peek() == "(" => {
                    self.some();
                    self.inside(Code);
                }
                "pub" => public = true,
                "fn" => {
                    let function = self.function(path);
                    if public {
                        found.push(function);
                    }
                    public = open;
                }
                "impl" | "trait" | "mod" => {
                    self.block(path, &token, found);
                    public = open;
                }
                "{" => {
                    self.inside(Code);
                    public = open;
                }
                ";" => public = open,
                _ => {}
            }
        }
    }

    /// The functions of an `impl`, a `trait` or a module; its word was just read.
    fn block(&mut self, path: &str, word: &str, found: &mut Vec<Function>) {
        let head = self.until(&["{", ";"]);
        if self.some() == ";" {
            return;
        }
        let open = word == "trait" || head.iter().any(|token| token == "for");
        let named = head.iter().skip_while(|token| head.contains(&"for".to_string()) && *token != "for");
        let name = plain(&named.filter(|token| *token != "for").cloned().collect::<Vec<_>>());
        self.items(&format!("{path}::{name}"), open, found);
    }

    /// The function whose `fn` was just read, with its body passed over.
    fn function(&mut self, path: &str) -> Function {
        let path = format!("{path}::{}", self.some());
        self.pass_generics();
        assert!(self.some() == "(", "{path}: no parenthesis behind the name");
        let parameters = parameters(&self.inside(Code));
        let mut returns = String::new();
        if self.peek() == "->" {
            self.some();
            returns = joined(&self.until(&["{", ";", "requires", "ensures"]));
        }
        let mut clauses = vec![];
        loop {
            match self.some().as_str() {
                ";" => break,
                "{" => {
                    self.inside(Code);
                    break;
                }
                word @ ("requires" | "ensures") => clauses.push(self.clause(word)),
                other => panic!("{path}: `{other}` in the head of the function"),
            }
        }
        Function { path, parameters, returns, clauses }
    }

    /// The clause whose word was just read; it may have a name.
    fn clause(&mut self, word: &str) -> Clause {
        let label = self.until(&["{"]);
        assert!(label.len() < 2, "no brace after {word} {label:?}");
        self.some();
        Clause { word: word.to_string(), tokens: self.inside(Contract) }
    }
}

/// The first name in the head of a block, what stands between `<` and `>` left out.
fn plain(head: &[String]) -> String {
    let mut depth = 0;
    for token in head {
        match token.as_str() {
            "<" => depth += 1,
            ">" => depth -= 1,
            name if depth == 0 => return name.to_string(),
            _ => {}
        }
    }
    panic!("a block without a name: {head:?}")
}

/// Tokens of a type as one text, with blanks where they are usual.
fn joined(tokens: &[String]) -> String {
    let spaced = |token: &String| ["mut", ";", ","].contains(&token.as_str());
    tokens.iter().map(|token| if spaced(token) { format!("{token} ") } else { token.clone() }).collect()
}

/// The parameters between the parentheses of a function.
fn parameters(tokens: &[String]) -> Vec<Parameter> {
    let (mut parts, mut depth) = (vec![vec![]], 0);
    for token in tokens {
        match token.as_str() {
            "(" | "[" | "{" | "<" => depth += 1,
            ")" | "]" | "}" | ">" => depth -= 1,
            _ => {}
        }
        if depth == 0 && token == "," {
            parts.push(vec![]);
        } else {
            parts.last_mut().unwrap().push(token.clone());
        }
    }
    parts.iter().filter(|part| !part.is_empty()).map(|part| parameter(part)).collect()
}

/// One parameter: `NAME: TYPE`, `mut NAME: TYPE`, or a form of `self`.
fn parameter(tokens: &[String]) -> Parameter {
    let Some(colon) = tokens.iter().position(|token| token == ":") else {
        assert!(tokens.last().is_some_and(|token| token == "self"), "a parameter without a type: {tokens:?}");
        return Parameter { name: "self".into(), kind: joined(tokens).replace("self", "Self") };
    };
    assert!(tokens[..colon].iter().all(|token| token.chars().all(is_word)), "a pattern for a name: {tokens:?}");
    Parameter { name: tokens[colon - 1].clone(), kind: joined(&tokens[colon + 1..]) }
}
