//! A small reader of XML 1.0: takes no document that is not well-formed, and not all that are.

#[derive(Debug, Default)]
pub struct Element {
    pub name: String,
    pub attributes: Vec<(String, String)>,
    /// The text that stands in the element itself.
    pub text: String,
    pub children: Vec<Element>,
}

impl Element {
    pub fn get(&self, name: &str) -> Option<&str> {
        let found = self.attributes.iter().find(|(key, _)| key == name);
        found.map(|(_, value)| value.as_str())
    }

    /// An attribute that is a number.
    pub fn number(&self, name: &str) -> Option<f64> {
        self.get(name)
            .map(|value| value.parse().unwrap_or_else(|_| panic!("{name}: {value}")))
    }

    pub fn child(&self, name: &str) -> Option<&Element> {
        self.children.iter().find(|child| child.name == name)
    }

    /// The elements of this name, at any depth, in turn.
    pub fn all(&self, name: &str) -> Vec<&Element> {
        let mut found = Vec::new();
        for child in &self.children {
            if child.name == name {
                found.push(child);
            }
            found.extend(child.all(name));
        }
        found
    }
}

/// The root element.
pub fn read(document: &str) -> Result<Element, String> {
    if let Some(sign) = document.chars().find(|sign| !allowed(*sign)) {
        return Err(format!("character {:X}", sign as u32));
    }
    let declaration = "<?xml version=\"1.0\" encoding=\"UTF-8\"?>";
    let mut rest = document.strip_prefix(declaration).ok_or("no declaration")?;
    let mut open = vec![Element::default()];
    while let Some(start) = rest.find('<') {
        let end = start + tag_length(&rest[start..])?;
        let current = open.last_mut().ok_or("an end without a start")?;
        current.text += &plain(&rest[..start])?;
        let tag = &rest[start + 1..end - 1];
        rest = &rest[end..];
        if let Some(name) = tag.strip_prefix('/') {
            let element = open.pop().ok_or("an end without a start")?;
            if element.name != name || name.is_empty() {
                return Err(format!("{} ends as {name}", element.name));
            }
            let parent = open.last_mut().ok_or("an end without a start")?;
            parent.children.push(element);
        } else if let Some(tag) = tag.strip_suffix('/') {
            current.children.push(element(tag)?);
        } else {
            open.push(element(tag)?);
        }
    }
    let document = open.pop().ok_or("nothing")?;
    let texts = document.text + rest;
    let mut roots = document.children;
    if !open.is_empty() || roots.len() != 1 || !texts.trim().is_empty() {
        return Err("not one element".to_string());
    }
    roots.pop().ok_or("nothing".to_string())
}

/// XML 1.0, production 2.
fn allowed(sign: char) -> bool {
    matches!(sign, '\t' | '\n' | '\r' | ' '..='\u{D7FF}' | '\u{E000}'..='\u{FFFD}' | '\u{10000}'..)
}

/// Up to the `>` that stands in no quotes.
fn tag_length(text: &str) -> Result<usize, String> {
    let mut quoted = false;
    for (place, sign) in text.char_indices().skip(1) {
        match sign {
            '"' => quoted = !quoted,
            '<' => return Err("< in a tag".to_string()),
            '>' if !quoted => return Ok(place + 1),
            _ => (),
        }
    }
    Err("a tag without its end".to_string())
}

fn is_name(text: &str) -> bool {
    let first = text.starts_with(|sign: char| sign.is_ascii_alphabetic());
    first
        && text
            .chars()
            .all(|sign| sign.is_ascii_alphanumeric() || ":-".contains(sign))
}

fn element(tag: &str) -> Result<Element, String> {
    let (name, mut rest) = match tag.find(' ') {
        Some(end) => tag.split_at(end),
        None => (tag, ""),
    };
    let mut attributes: Vec<(String, String)> = Vec::new();
    while !rest.trim_start().is_empty() {
        let part = rest
            .strip_prefix(' ')
            .ok_or("no space before an attribute")?;
        let (key, value) = part.split_once("=\"").ok_or("no value")?;
        let (value, behind) = value.split_once('"').ok_or("no closing quote")?;
        if !is_name(key) || attributes.iter().any(|(other, _)| other == key) {
            return Err(format!("attribute {key}"));
        }
        attributes.push((key.to_string(), plain(value)?));
        rest = behind;
    }
    if !is_name(name) {
        return Err(format!("name {name}"));
    }
    let name = name.to_string();
    Ok(Element {
        name,
        attributes,
        ..Element::default()
    })
}

/// The text with its entities replaced.
fn plain(text: &str) -> Result<String, String> {
    let mut parts = text.split('&');
    let mut plain = parts.next().unwrap_or_default().to_string();
    for part in parts {
        let (name, rest) = part.split_once(';').ok_or("a bare &")?;
        plain.push(match name {
            "amp" => '&',
            "lt" => '<',
            "gt" => '>',
            "quot" => '"',
            "apos" => '\'',
            _ => return Err(format!("entity {name}")),
        });
        plain += rest;
    }
    if plain.contains("]]>") && text.contains("]]>") {
        return Err("]]>".to_string());
    }
    Ok(plain)
}

#[test]
fn reads() {
    let head = "<?xml version=\"1.0\" encoding=\"UTF-8\"?>";
    let read = |body: &str| super::xml::read(&format!("{head}{body}"));
    let root = read("<a b=\"1 &lt; 2\"><c/>x &amp; y<d><c e=\"\"/></d></a>\n").unwrap();
    assert_eq!(root.get("b"), Some("1 < 2"));
    assert_eq!(root.text, "x & y");
    assert_eq!(root.all("c").len(), 2);
    let bad = [
        "",
        "a",
        "<a>",
        "</a>",
        "<a></b>",
        "<a/><a/>",
        "<a/>x",
        "<a b/>",
        "<a b=1/>",
        "<a b=\"1/>",
        "<a b=\"1\"c=\"2\"/>",
        "<a b=\"\" b=\"\"/>",
        "<a>&</a>",
        "<a>&nbsp;</a>",
        "<a b=\"&\"/>",
        "<a b=\"<\"/>",
        "<a>\u{1}</a>",
        "<a>\u{FFFE}</a>",
        "<a>]]></a>",
        "<a><b></a></b>",
        "<1/>",
    ];
    for body in bad {
        assert!(read(body).is_err(), "{body}");
    }
}
