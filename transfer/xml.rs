//! XML with namespaces, as the server writes it: elements, attributes, texts and references; no document type.
use std::fmt::Write;

/// An element: its prefix, namespace and local name, its attributes as they stand, without declarations, and what is in it.
#[derive(Debug, Default)]
pub struct Element {
    pub prefix: String,
    pub namespace: String,
    pub name: String,
    attributes: Vec<Attribute>,
    within: Vec<Node>,
}

#[derive(Debug)]
struct Attribute {
    prefix: String,
    namespace: String,
    name: String,
    value: String,
}

#[derive(Debug)]
enum Node {
    Text(String),
    Element(Element),
}

impl Node {
    fn into_element(self) -> Option<Element> {
        match self {
            Node::Element(element) => Some(element),
            Node::Text(_) => None,
        }
    }
}

/// The namespace of `xml:lang` and its like, whose prefix is never declared.
const XML: &str = "http://www.w3.org/XML/1998/namespace";

impl Element {
    /// The root of a document; none where this isn't one.
    pub fn read(text: &str) -> Option<Element> {
        let mut reader = Reader { text, at: 0, bound: vec![("xml".to_string(), XML.to_string())] };
        if reader.take("<?xml") {
            reader.until("?>")?;
        }
        reader.blanks();
        let root = reader.take("<").then(|| reader.element()).flatten()?;
        reader.blanks();
        (reader.at == text.len()).then_some(root)
    }

    pub fn is(&self, namespace: &str, name: &str) -> bool {
        self.namespace == namespace && self.name == name
    }

    pub fn elements(&self) -> impl Iterator<Item = &Element> {
        self.within.iter().filter_map(|node| match node {
            Node::Element(element) => Some(element),
            Node::Text(_) => None,
        })
    }

    /// The elements of `DAV:` with this name that are right in this one.
    pub fn all<'e>(&'e self, name: &'e str) -> impl Iterator<Item = &'e Element> {
        self.elements().filter(move |element| element.is("DAV:", name))
    }

    /// Takes these out of this element.
    pub fn take_all(&mut self, name: &str) -> Vec<Element> {
        let within = std::mem::take(&mut self.within);
        within.into_iter().filter_map(Node::into_element).filter(|element| element.is("DAV:", name)).collect()
    }

    pub fn into_elements(self) -> impl Iterator<Item = Element> {
        self.within.into_iter().filter_map(Node::into_element)
    }

    pub fn first(&self, name: &str) -> Option<&Element> {
        self.elements().find(|element| element.is("DAV:", name))
    }

    /// The text in this element, and in those in it.
    pub fn text(&self) -> String {
        let parts = self.within.iter().map(|node| match node {
            Node::Text(text) => text.clone(),
            Node::Element(element) => element.text(),
        });
        parts.collect()
    }

    /// This element as a text of its own: each prefix is declared where it begins to mean what it means.
    pub fn written(&self) -> String {
        let mut text = String::new();
        self.write(&mut text, &mut vec![("xml".to_string(), XML.to_string()), (String::new(), String::new())]);
        text
    }

    fn write(&self, text: &mut String, bound: &mut Vec<(String, String)>) {
        let before = bound.len();
        let name = qualified(&self.prefix, &self.name);
        let _ = write!(text, "<{name}");
        declare(text, bound, &self.prefix, &self.namespace);
        for attribute in &self.attributes {
            if !attribute.prefix.is_empty() {
                declare(text, bound, &attribute.prefix, &attribute.namespace);
            }
            let _ = write!(text, " {}=\"{}\"", qualified(&attribute.prefix, &attribute.name), escaped(&attribute.value));
        }
        if self.within.is_empty() {
            text.push_str("/>");
        } else {
            text.push('>');
            for node in &self.within {
                match node {
                    Node::Text(part) => text.push_str(&escaped(part)),
                    Node::Element(element) => element.write(text, bound),
                }
            }
            let _ = write!(text, "</{name}>");
        }
        bound.truncate(before);
    }
}

fn qualified(prefix: &str, name: &str) -> String {
    if prefix.is_empty() { name.to_string() } else { format!("{prefix}:{name}") }
}

/// The namespace of a prefix; none where it has none.
fn meaning<'b>(bound: &'b [(String, String)], prefix: &str) -> Option<&'b str> {
    bound.iter().rev().find(|(name, _)| name == prefix).map(|(_, namespace)| namespace.as_str())
}

/// Declares a prefix, where it doesn't mean this namespace yet.
fn declare(text: &mut String, bound: &mut Vec<(String, String)>, prefix: &str, namespace: &str) {
    if meaning(bound, prefix) == Some(namespace) {
        return;
    }
    let _ = write!(text, " {}=\"{}\"", if prefix.is_empty() { "xmlns".to_string() } else { format!("xmlns:{prefix}") }, escaped(namespace));
    bound.push((prefix.to_string(), namespace.to_string()));
}

fn escaped(text: &str) -> String {
    let mut made = String::new();
    for character in text.chars() {
        match character {
            '&' => made.push_str("&amp;"),
            '<' => made.push_str("&lt;"),
            '>' => made.push_str("&gt;"),
            '"' => made.push_str("&quot;"),
            '\t' | '\n' | '\r' => {
                let _ = write!(made, "&#{};", character as u32);
            }
            _ => made.push(character),
        }
    }
    made
}

/// A text of XML, and how far it was read. `bound` has the prefixes that are declared there.
struct Reader<'t> {
    text: &'t str,
    at: usize,
    bound: Vec<(String, String)>,
}

impl<'t> Reader<'t> {
    fn rest(&self) -> &'t str {
        &self.text[self.at..]
    }

    fn take(&mut self, word: &str) -> bool {
        let is_next = self.rest().starts_with(word);
        self.at += if is_next { word.len() } else { 0 };
        is_next
    }

    fn blanks(&mut self) {
        self.at += self.rest().len() - self.rest().trim_start_matches([' ', '\t', '\r', '\n']).len();
    }

    /// What comes until this word, which is taken too.
    fn until(&mut self, word: &str) -> Option<&'t str> {
        let before = self.rest().split_once(word)?.0;
        self.at += before.len() + word.len();
        Some(before)
    }

    /// A prefix, which may be empty, and a name.
    fn name(&mut self) -> Option<(String, String)> {
        let length = self.rest().find([' ', '\t', '\r', '\n', '=', '/', '>'])?;
        let name = &self.rest()[..length];
        self.at += length;
        let (prefix, local) = name.split_once(':').unwrap_or(("", name));
        (!local.is_empty()).then(|| (prefix.to_string(), local.to_string()))
    }

    /// An element behind its `<`.
    fn element(&mut self) -> Option<Element> {
        let before = self.bound.len();
        let (prefix, name) = self.name()?;
        let mut told = Vec::new();
        loop {
            self.blanks();
            if self.rest().starts_with(['/', '>']) {
                break;
            }
            let (prefix, name) = self.name()?;
            let is_whole = self.take("=");
            let quote = if self.take("\"") { "\"" } else { is_whole.then(|| self.take("'")).filter(|is| *is).map(|_| "'")? };
            let value = unescaped(self.until(quote)?)?;
            match (prefix.as_str(), name.as_str()) {
                ("", "xmlns") => self.bound.push((String::new(), value)),
                ("xmlns", _) => self.bound.push((name, value)),
                _ => told.push((prefix, name, value)),
            }
        }
        let mut element = Element { namespace: self.namespace(&prefix)?, prefix, name, ..Element::default() };
        for (prefix, name, value) in told {
            let namespace = if prefix.is_empty() { String::new() } else { self.namespace(&prefix)? };
            element.attributes.push(Attribute { prefix, namespace, name, value });
        }
        if !self.take("/>") {
            self.take(">");
            self.within(&mut element)?;
        }
        self.bound.truncate(before);
        Some(element)
    }

    fn namespace(&self, prefix: &str) -> Option<String> {
        match meaning(&self.bound, prefix) {
            Some(namespace) => Some(namespace.to_string()),
            None => prefix.is_empty().then(String::new),
        }
    }

    /// What is in an element, and its end.
    fn within(&mut self, element: &mut Element) -> Option<()> {
        loop {
            let text = self.until("<")?;
            if !text.is_empty() {
                element.within.push(Node::Text(unescaped(text)?));
            }
            if self.take("/") {
                let end = self.until(">")?;
                return (end.trim_end() == qualified(&element.prefix, &element.name)).then_some(());
            }
            element.within.push(Node::Element(self.element()?));
        }
    }
}

/// A text with its references replaced; none where one is unknown.
fn unescaped(text: &str) -> Option<String> {
    let mut made = String::new();
    let mut rest = text;
    while let Some((before, behind)) = rest.split_once('&') {
        let (name, after) = behind.split_once(';')?;
        made.push_str(before);
        made.push(match name {
            "amp" => '&',
            "lt" => '<',
            "gt" => '>',
            "quot" => '"',
            "apos" => '\'',
            _ => {
                let number = name.strip_prefix('#')?;
                let code = number.strip_prefix('x').map_or_else(|| number.parse().ok(), |digits| u32::from_str_radix(digits, 16).ok());
                char::from_u32(code?)?
            }
        });
        rest = after;
    }
    made.push_str(rest);
    Some(made)
}

#[cfg(test)]
mod tests {
    use super::*;

    #[test]
    fn is_read_and_written() {
        for (text, written) in [
            ("<a/>", "<a/>"),
            ("<?xml version=\"1.0\" encoding=\"utf-8\"?>\n<a> &lt;&#x41;&#66;&amp; </a >", "<a> &lt;AB&amp; </a>"),
            ("<p:a xmlns:p='u' xmlns:q=\"v\"><q:b q:c=\"&quot;\" xml:lang='en'/></p:a>", "<p:a xmlns:p=\"u\"><q:b xmlns:q=\"v\" q:c=\"&quot;\" xml:lang=\"en\"/></p:a>"),
            ("<a xmlns=\"u\"><b xmlns=\"\"/></a>", "<a xmlns=\"u\"><b xmlns=\"\"/></a>"),
            ("<p:a xmlns:p=\"u\"><p:b xmlns:p=\"v\"/><p:c/></p:a>", "<p:a xmlns:p=\"u\"><p:b xmlns:p=\"v\"/><p:c/></p:a>"),
        ] {
            assert_eq!(Element::read(text).expect(text).written(), written);
        }
        for text in ["", "a", "<a>", "<a></b>", "<p:a/>", "<a b/>", "<a b=c/>", "<a>&x;</a>", "<a/><b/>", "<a>&</a>", "<!DOCTYPE a><a/>"] {
            assert!(Element::read(text).is_none(), "{text}");
        }
    }
}
