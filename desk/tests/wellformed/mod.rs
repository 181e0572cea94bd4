//! A strict check of a page: it is well-formed in the way that we write it, and it needs nothing from outside the file.

use std::collections::BTreeSet;

/// Elements without content.
const VOID: [&str; 4] = ["br", "meta", "hr", "input"];

/// Attributes that may stand without a value.
const BARE: [&str; 7] = ["hidden", "readonly", "disabled", "open", "checked", "selected", "required"];

/// Named entities.
const ENTITIES: [&str; 6] = ["amp", "lt", "gt", "quot", "apos", "nbsp"];

/// Elements that fetch something or change where the page's addresses lead.
const FETCHING_ELEMENTS: [&str; 14] = [
    "link", "img", "iframe", "object", "embed", "base", "audio", "video", "source", "track", "image", "feimage",
    "frame", "portal",
];

/// Attributes that name an address.
const FETCHING_ATTRIBUTES: [&str; 9] =
    ["src", "srcset", "xlink:href", "action", "formaction", "background", "poster", "data", "ping"];

/// What a script could reach the network with.
const FETCHING_NAMES: [&str; 11] = [
    "fetch",
    "XMLHttpRequest",
    "WebSocket",
    "EventSource",
    "import",
    "importScripts",
    "sendBeacon",
    "Worker",
    "SharedWorker",
    "serviceWorker",
    "WebTransport",
];

/// Elements that end an open paragraph in a browser, so that they cannot stand in one.
const BLOCKS: [&str; 28] = [
    "p",
    "div",
    "section",
    "article",
    "aside",
    "header",
    "footer",
    "main",
    "nav",
    "h1",
    "h2",
    "h3",
    "h4",
    "h5",
    "h6",
    "ul",
    "ol",
    "dl",
    "table",
    "pre",
    "form",
    "fieldset",
    "figure",
    "figcaption",
    "details",
    "blockquote",
    "address",
    "hr",
];

/// The page's own statement of what it may load and run.
const POLICY: &str = "default-src 'none'; style-src 'unsafe-inline'; script-src 'unsafe-inline'";

/// Checks a page; the error names the line.
pub fn check(page: &str) -> Result<(), String> {
    let mut reader = Reader { page, at: 0, open: Vec::new(), ids: BTreeSet::new(), policy: false, charset: false };
    reader.page().map_err(|error| format!("line {}: {error}", page[..reader.at].matches('\n').count() + 1))
}

/// What was read up to a place of the page.
struct Reader<'a> {
    page: &'a str,
    at: usize,
    open: Vec<&'a str>,
    ids: BTreeSet<&'a str>,
    policy: bool,
    charset: bool,
}

/// A start tag: its name, its attributes, and whether it ends with a slash.
struct Tag<'a> {
    name: &'a str,
    attributes: Vec<(&'a str, Option<&'a str>)>,
    closed: bool,
}

impl<'a> Tag<'a> {
    /// The value of an attribute.
    fn get(&self, name: &str) -> Option<&'a str> {
        self.attributes.iter().find(|attribute| attribute.0 == name).and_then(|attribute| attribute.1)
    }
}

impl<'a> Reader<'a> {
    /// The rest of the page.
    fn rest(&self) -> &'a str {
        &self.page[self.at..]
    }

    /// Goes on behind a text that must stand here.
    fn expect(&mut self, text: &str) -> Result<(), String> {
        if !self.rest().starts_with(text) {
            return Err(format!("{text:?} is missing"));
        }
        self.at += text.len();
        Ok(())
    }

    /// Everything up to a text, which must come.
    fn up_to(&mut self, text: &str) -> Result<&'a str, String> {
        let rest = self.rest();
        let length = rest.find(text).ok_or_else(|| format!("{text:?} does not come"))?;
        self.at += length;
        Ok(&rest[..length])
    }

    /// Everything up to the first character that does not fit.
    fn run(&mut self, fits: impl Fn(char) -> bool) -> &'a str {
        let rest = self.rest();
        let length = rest.find(|c| !fits(c)).unwrap_or(rest.len());
        self.at += length;
        &rest[..length]
    }

    /// The whole page: the doctype, and one element html.
    fn page(&mut self) -> Result<(), String> {
        self.expect("<!DOCTYPE html>")?;
        self.run(char::is_whitespace);
        self.expect("<html")?;
        self.at -= "<html".len();
        self.start()?;
        while !self.open.is_empty() {
            self.piece()?;
        }
        self.run(char::is_whitespace);
        if !self.rest().is_empty() {
            return Err("there is something after </html>".into());
        }
        match (self.charset, self.policy) {
            (false, _) => Err("<meta charset=\"utf-8\"> is missing".into()),
            (_, false) => Err("the policy is missing".into()),
            _ => Ok(()),
        }
    }

    /// A text, a tag or a comment.
    fn piece(&mut self) -> Result<(), String> {
        let rest = self.rest();
        if rest.is_empty() {
            Err(format!("<{}> is not closed", self.open[self.open.len() - 1]))
        } else if !rest.starts_with('<') {
            entities(self.run(|c| c != '<'))
        } else if rest.starts_with("<!--") {
            self.at += "<!--".len();
            let comment = self.up_to("-->")?;
            self.at += "-->".len();
            if comment.contains("--") || comment.starts_with('>') {
                Err("a bad comment".into())
            } else {
                Ok(())
            }
        } else if rest.starts_with("</") {
            self.end()
        } else {
            self.start()
        }
    }

    /// An end tag.
    fn end(&mut self) -> Result<(), String> {
        self.expect("</")?;
        let name = self.run(|c| c.is_ascii_alphanumeric());
        self.expect(">")?;
        match self.open.pop() {
            Some(open) if open == name => Ok(()),
            open => Err(format!("</{name}> closes <{}>", open.unwrap_or(""))),
        }
    }

    /// A start tag, and for a script or a style its content and its end.
    fn start(&mut self) -> Result<(), String> {
        let tag = self.tag()?;
        self.placed(&tag)?;
        self.alone(&tag)?;
        self.meta(&tag)?;
        if let Some(id) = tag.get("id") {
            if id.is_empty() || id.contains(char::is_whitespace) || !self.ids.insert(id) {
                return Err(format!("the id {id:?} is not one or stands twice"));
            }
        }
        if tag.closed || VOID.contains(&tag.name) {
            return Ok(());
        }
        self.open.push(tag.name);
        if tag.name == "script" || tag.name == "style" {
            let content = self.up_to(&format!("</{}", tag.name))?;
            raw(&tag, content)?;
        }
        Ok(())
    }

    /// The name and the attributes of a start tag.
    fn tag(&mut self) -> Result<Tag<'a>, String> {
        self.expect("<")?;
        let name = self.run(|c| c.is_ascii_alphanumeric());
        if !name.starts_with(|c: char| c.is_ascii_alphabetic()) {
            return Err("a raw '<'".into());
        }
        let mut attributes = Vec::new();
        loop {
            let blanks = self.run(char::is_whitespace);
            let closed = self.rest().starts_with('/');
            if closed || self.rest().starts_with('>') {
                self.at += closed as usize;
                self.expect(">")?;
                return Ok(Tag { name, attributes, closed });
            }
            if blanks.is_empty() {
                return Err(format!("no blank before an attribute of <{name}>"));
            }
            let attribute = self.attribute()?;
            if attributes.iter().any(|other: &(&str, _)| other.0 == attribute.0) {
                return Err(format!("the attribute {} stands twice", attribute.0));
            }
            attributes.push(attribute);
        }
    }

    /// An attribute: a name with a quoted value, or one of the few names that need none.
    fn attribute(&mut self) -> Result<(&'a str, Option<&'a str>), String> {
        let name = self.run(|c| c.is_ascii_alphanumeric() || matches!(c, '-' | ':' | '_'));
        if name.is_empty() {
            return Err("a bad attribute".into());
        }
        if !self.rest().starts_with('=') {
            return if BARE.contains(&name) {
                Ok((name, None))
            } else {
                Err(format!("the attribute {name} has no value"))
            };
        }
        self.at += 1;
        let quote = if self.rest().starts_with('\'') { "'" } else { "\"" };
        self.expect(quote).map_err(|_| format!("the value of {name} is not quoted"))?;
        let value = self.up_to(quote)?;
        self.at += 1;
        if value.contains('<') {
            return Err(format!("a raw '<' in the value of {name}"));
        }
        entities(value)?;
        Ok((name, Some(value)))
    }

    /// Checks where an element stands: only void ones and those of a picture may end with a slash, and none ends a paragraph by chance.
    fn placed(&self, tag: &Tag) -> Result<(), String> {
        let drawn = tag.name == "svg" || self.open.contains(&"svg");
        if tag.closed && !VOID.contains(&tag.name) && !drawn {
            return Err(format!("<{}/> is no void element", tag.name));
        }
        if !drawn && tag.name.contains(|c: char| c.is_ascii_uppercase()) {
            return Err(format!("<{}> has capitals", tag.name));
        }
        if !drawn && BLOCKS.contains(&tag.name) && self.open.contains(&"p") {
            return Err(format!("<{}> stands in a paragraph", tag.name));
        }
        Ok(())
    }

    /// Checks that an element fetches nothing and leads nowhere.
    fn alone(&self, tag: &Tag) -> Result<(), String> {
        if FETCHING_ELEMENTS.contains(&&*tag.name.to_lowercase()) {
            return Err(format!("<{}> is not allowed", tag.name));
        }
        for &(name, value) in &tag.attributes {
            let (name, value) = (name.to_lowercase(), value.unwrap_or("").to_lowercase());
            let namespace = name == "xmlns" && tag.name == "svg" && value == "http://www.w3.org/2000/svg";
            if FETCHING_ATTRIBUTES.contains(&&*name) || name.starts_with("on") {
                return Err(format!("the attribute {name} is not allowed"));
            }
            if name == "href" && !value.starts_with('#') {
                return Err(format!("href leads to {value:?}"));
            }
            if !namespace && (value.contains("http:") || value.contains("https:")) {
                return Err(format!("{name} has an address"));
            }
            loads(&value.replace("url(#", ""))?;
        }
        Ok(())
    }

    /// Takes note of the character set and the policy, which must stand before any style or script; no other http-equiv is allowed.
    fn meta(&mut self, tag: &Tag) -> Result<(), String> {
        if matches!(tag.name, "style" | "script" | "body") && !self.policy {
            return Err(format!("<{}> stands before the policy, or there is none", tag.name));
        }
        if tag.name != "meta" {
            return Ok(());
        }
        self.charset |= tag.get("charset").is_some_and(|charset| charset.eq_ignore_ascii_case("utf-8"));
        match (tag.get("http-equiv"), tag.get("content")) {
            (None, _) => Ok(()),
            (Some("Content-Security-Policy"), Some(POLICY)) if self.open == ["html", "head"] => {
                self.policy = true;
                Ok(())
            }
            (Some(other), _) => Err(format!("http-equiv {other:?}: only the policy is allowed, in the head")),
        }
    }
}

/// Checks that each `&` begins a known entity.
fn entities(text: &str) -> Result<(), String> {
    for piece in text.split('&').skip(1) {
        let name = piece.split_once(';').map_or("", |parts| parts.0);
        let number = match name.strip_prefix('#') {
            Some(digits) => match digits.strip_prefix('x') {
                Some(hex) => u32::from_str_radix(hex, 16).ok(),
                None => digits.parse().ok(),
            },
            None => None,
        };
        if !ENTITIES.contains(&name) && number.and_then(char::from_u32).is_none() {
            return Err(format!("'&' with no known entity: {:?}", piece.chars().take(12).collect::<String>()));
        }
    }
    Ok(())
}

/// Checks the content of a script or a style.
fn raw(tag: &Tag, content: &str) -> Result<(), String> {
    if content.contains("<!--") {
        return Err(format!("\"<!--\" in <{}>", tag.name));
    }
    if tag.name == "style" {
        return loads(&content.to_lowercase());
    }
    match tag.get("type") {
        Some("application/json") if !content.contains('<') => return Ok(()),
        None => (),
        _ => return Err("a script of another type, or data with a raw '<'".into()),
    }
    let names = content.split(|c: char| !c.is_alphanumeric() && c != '_' && c != '$');
    match names.into_iter().find(|name| FETCHING_NAMES.contains(name)) {
        Some(name) => Err(format!("{name} in a script")),
        None => Ok(()),
    }
}

/// Checks that a style, in small letters, loads nothing.
fn loads(style: &str) -> Result<(), String> {
    match ["@import", "url(", "image-set("].into_iter().find(|word| style.contains(word)) {
        Some(word) => Err(format!("{word:?} in a style or an attribute")),
        None => Ok(()),
    }
}

#[cfg(test)]
mod tests {
    use super::check;

    /// A small good page; each test spoils it.
    const GOOD: &str = r##"<!DOCTYPE html>
<html lang="en">
<head><meta charset="utf-8"><meta http-equiv="Content-Security-Policy" content="default-src 'none'; style-src 'unsafe-inline'; script-src 'unsafe-inline'">
<title>A &amp; B &#39; &#x27;</title><style>p > a { color: red }</style></head>
<body><!-- a comment --><p id="one" hidden>x<br>y<br/><a href="#one">z</a> > 1</p>
<svg xmlns="http://www.w3.org/2000/svg" viewBox="0 0 1 1"><path d="M 0 0" marker-end="url(#two)"/><g id="two"></g></svg>
<script type="application/json" id="data">{"fetch": "import \u003c http://"}</script>
<script>if (1 < 2 && "</p>") prefetch();</script></body>
</html>
"##;

    /// The good page with one text replaced must be refused, with a message that has some words.
    fn spoiled(from: &str, to: &str, words: &str) {
        assert!(GOOD.contains(from), "{from}");
        let error = check(&GOOD.replacen(from, to, 1)).expect_err(to);
        assert!(error.contains(words), "{to}: {error}");
    }

    #[test]
    fn a_good_page() {
        assert_eq!(check(GOOD), Ok(()));
    }

    #[test]
    fn doctype_and_ends() {
        spoiled("<!DOCTYPE html>", "", "DOCTYPE");
        spoiled("<!DOCTYPE html>", " <!DOCTYPE html>", "DOCTYPE");
        spoiled("<html lang=\"en\">", "x<html lang=\"en\">", "<html");
        spoiled("</html>", "", "<html> is not closed");
        spoiled("</html>\n", "</html>\nx", "after </html>");
        assert!(check("").is_err());
    }

    #[test]
    fn nesting() {
        spoiled("</a>", "", "</p> closes <a>");
        spoiled("z</a> > 1</p>", "z</p></a>", "</p> closes <a>");
        spoiled("</p>\n<svg", "</p></p>\n<svg", "</p> closes <body>");
        spoiled("x<br>", "x<em>", "closes <em>");
        spoiled("x<br>", "x<em/>", "<em/> is no void element");
        spoiled("x<br>", "x<br></br>", "closes <p>");
        spoiled("x<br>", "x<ul><li>1</li></ul>", "<ul> stands in a paragraph");
        spoiled("x<br>", "x<BR>", "capitals");
        spoiled("<g id=\"two\"></g>", "<g id=\"two\">", "</svg> closes <g>");
        spoiled("</script></body>", "</body>", "\"</script\" does not come");
        spoiled("}</style>", "}", "\"</style\" does not come");
        spoiled("a comment -->", "a -- comment -->", "a bad comment");
        spoiled("a comment -->", "a comment", "\"-->\" does not come");
    }

    #[test]
    fn attributes() {
        spoiled("id=\"one\"", "id=one", "not quoted");
        spoiled("id=\"one\"", "id", "id has no value");
        spoiled("id=\"one\"", "id=\"one\" id=\"three\"", "stands twice");
        spoiled("id=\"one\"", "id=\"one\"class=\"a\"", "no blank");
        spoiled("id=\"one\"", "title=\"a < b\"", "raw '<'");
        spoiled("id=\"one\"", "title=\"a & b\"", "no known entity");
        spoiled("id=\"one\"", "=\"a\"", "a bad attribute");
    }

    #[test]
    fn texts_and_ids() {
        spoiled("A &amp; B", "A & B", "no known entity");
        spoiled("A &amp; B", "A &amp B", "no known entity");
        spoiled("A &amp; B", "A &foo; B", "no known entity");
        spoiled("A &amp; B", "A &#xD800; B", "no known entity");
        spoiled("A &amp; B", "A < B", "raw '<'");
        spoiled("A &amp; B", "A <3 B", "raw '<'");
        spoiled("id=\"two\"", "id=\"one\"", "\"one\" is not one or stands twice");
        spoiled("id=\"two\"", "id=\"a b\"", "\"a b\" is not one or stands twice");
        spoiled("id=\"two\"", "id=\"\"", "\"\" is not one or stands twice");
    }

    #[test]
    fn elements_from_outside() {
        for name in ["iframe", "object", "audio", "video", "portal"] {
            spoiled("x<br>", &format!("x<{name}></{name}>"), &format!("<{name}> is not allowed"));
        }
        for name in ["link", "img", "embed", "base", "source", "track", "image", "frame"] {
            spoiled("<path d", &format!("<{name}/><path d"), &format!("<{name}> is not allowed"));
        }
        spoiled("<path d", "<feImage/><path d", "<feImage> is not allowed");
    }

    #[test]
    fn attributes_from_outside() {
        for name in
            ["src", "srcset", "xlink:href", "action", "formaction", "background", "poster", "data", "ping", "onclick"]
        {
            spoiled("id=\"one\"", &format!("{name}=\"#one\""), &format!("{name} is not allowed"));
        }
        spoiled("href=\"#one\"", "href=\"other.html\"", "href leads to");
        spoiled("href=\"#one\"", "href=\"javascript:1\"", "href leads to");
        spoiled("id=\"one\"", "title=\"http://example.org\"", "title has an address");
        spoiled("id=\"one\"", "title=\"HTTPS://example.org\"", "title has an address");
        spoiled("http://www.w3.org/2000/svg", "http://www.w3.org/2000/svh", "xmlns has an address");
        spoiled("id=\"one\"", "style=\"background: url(x)\"", "\"url(\"");
        spoiled("url(#two)", "url(two)", "\"url(\"");
    }

    #[test]
    fn styles_and_scripts() {
        spoiled("color: red", "background: URL(x)", "\"url(\"");
        spoiled("color: red", "background: url(#x)", "\"url(\"");
        spoiled("color: red", "background: image-set('x')", "\"image-set(\"");
        spoiled("p > a", "@import 'x'; p > a", "\"@import\"");
        for name in super::FETCHING_NAMES {
            spoiled("prefetch()", &format!("{name}(1)"), &format!("{name} in a script"));
        }
        spoiled("prefetch()", "\"<!--\"", "\"<!--\" in <script>");
        spoiled("\\u003c", "<", "data with a raw '<'");
        spoiled("application/json", "module", "a script of another type");
    }

    #[test]
    fn metas() {
        spoiled("<meta charset=\"utf-8\">", "", "charset");
        spoiled("'unsafe-inline'; script", "*; script", "only the policy");
        spoiled("Content-Security-Policy", "refresh", "only the policy");
        let policy = &GOOD[GOOD.find("<meta http-equiv").unwrap()..GOOD.find("\n<title>").unwrap()];
        spoiled(policy, "", "<style> stands before the policy");
        let without = GOOD.replacen(policy, "", 1).replacen("<style>p > a { color: red }</style>", "", 1);
        assert!(check(&without).unwrap_err().contains("<body> stands before the policy"));
        assert!(check(&without.replacen("<p id", &format!("{policy}<p id"), 1)).is_err());
    }
}
