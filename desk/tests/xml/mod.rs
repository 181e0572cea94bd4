//! A strict reader of the XML that drawings use: elements, quoted attributes, text with escapes.

/// An element: its name, its attributes, the elements in it, and its own text.
#[derive(Debug, Default)]
pub struct Element {
    pub name: String,
    pub attributes: Vec<(String, String)>,
    pub children: Vec<Element>,
    pub text: String,
}

impl Element {
    /// The value of an attribute.
    pub fn attribute(&self, name: &str) -> Option<&str> {
        self.attributes.iter().find(|attribute| attribute.0 == name).map(|attribute| &*attribute.1)
    }

    /// The words of the attribute `class`.
    pub fn classes(&self) -> Vec<&str> {
        self.attribute("class").unwrap_or("").split(' ').collect()
    }

    /// This element and all in it.
    pub fn all(&self) -> Vec<&Element> {
        std::iter::once(self).chain(self.children.iter().flat_map(Element::all)).collect()
    }

    /// The lines of text in it.
    pub fn lines(&self) -> Vec<String> {
        self.all().into_iter().filter(|part| part.name == "tspan").map(|part| part.text.clone()).collect()
    }
}

/// What is left to read.
struct Reading<'a> {
    rest: &'a str,
}

/// The one element that a text is.
pub fn read(text: &str) -> Element {
    let mut reading = Reading { rest: text };
    let root = reading.element();
    assert_eq!(reading.rest.trim(), "", "nothing comes after the root");
    let mut ids: Vec<&str> = root.all().into_iter().filter_map(|element| element.attribute("id")).collect();
    ids.sort();
    let count = ids.len();
    ids.dedup();
    assert_eq!(ids.len(), count, "each id is there once");
    root
}

impl<'a> Reading<'a> {
    /// Takes a text that has to stand here.
    fn take(&mut self, text: &str) {
        let around: String = self.rest.chars().take(60).collect();
        self.rest = self.rest.strip_prefix(text).unwrap_or_else(|| panic!("{text:?} stands before {around:?}"));
    }

    /// Takes everything before a character.
    fn until(&mut self, end: impl Fn(char) -> bool) -> &'a str {
        let at = self.rest.find(end).expect("the text goes on");
        let (taken, rest) = self.rest.split_at(at);
        self.rest = rest;
        taken
    }

    /// Takes a name.
    fn name(&mut self) -> String {
        let name = self.until(|c| !(c.is_ascii_alphanumeric() || c == '-'));
        assert!(name.starts_with(|c: char| c.is_ascii_alphabetic()), "a name begins with a letter: {name:?}");
        name.to_string()
    }

    /// Takes an element with all in it.
    fn element(&mut self) -> Element {
        self.take("<");
        let mut element = Element { name: self.name(), ..Element::default() };
        while self.rest.starts_with(' ') {
            self.take(" ");
            let name = self.name();
            self.take("=\"");
            let value = plain(self.until(|c| c == '"'));
            self.take("\"");
            assert!(element.attribute(&name).is_none(), "{name} is given once");
            element.attributes.push((name, value));
        }
        if self.rest.starts_with("/>") {
            self.take("/>");
            return element;
        }
        self.take(">");
        loop {
            element.text += &plain(self.until(|c| c == '<'));
            if self.rest.starts_with("</") {
                self.take(&format!("</{}>", element.name));
                return element;
            }
            element.children.push(self.element());
        }
    }
}

/// A text without its escapes; every mark that needs one has one.
fn plain(text: &str) -> String {
    assert!(!text.contains('<') && !text.contains("]]>"), "{text:?}");
    let mut parts = text.split('&');
    let mut plain = parts.next().unwrap_or("").to_string();
    for part in parts {
        let (escape, rest) = part.split_once(';').expect("an escape ends");
        let marks = [("amp", '&'), ("lt", '<'), ("gt", '>'), ("quot", '"')];
        let mark = marks.iter().find(|mark| mark.0 == escape).unwrap_or_else(|| panic!("{escape:?} is no escape"));
        plain.push(mark.1);
        plain += rest;
    }
    plain
}
