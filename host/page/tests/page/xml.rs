//! Is a page well-formed XML, and of elements that HTML knows? Enough of both for pages: no
//! comments, no CDATA, no entities of its own.

/// An element's begin.
#[derive(Debug)]
pub struct Tag {
    /// Its name.
    pub name: String,
    /// Its attributes.
    pub attributes: Vec<(String, String)>,
    /// The elements around it, outermost first.
    pub around: Vec<String>,
}

impl Tag {
    /// The value of an attribute.
    pub fn get(&self, attribute: &str) -> Option<&str> {
        let mut attributes = self.attributes.iter();
        let found = attributes.find(|(name, _)| name == attribute);
        found.map(|(_, value)| value.as_str())
    }
}

/// The elements of a page in their order, or what is wrong with it.
pub fn tags(page: &str) -> Result<Vec<Tag>, String> {
    let doctype = "<!DOCTYPE html>\n";
    let mut rest = page.strip_prefix(doctype).ok_or("it has no doctype")?;
    let (mut tags, mut open) = (Vec::new(), Vec::<String>::new());
    while let Some(start) = rest.find('<') {
        text(&rest[..start], open.is_empty())?;
        let end = rest[start..].find('>').ok_or("a tag has no end")? + start;
        let tag = &rest[start + 1..end];
        rest = &rest[end + 1..];
        if let Some(name) = tag.strip_prefix('/') {
            let opened = open.pop();
            if opened.as_deref() != Some(name) {
                return Err(format!("</{name}> closes {opened:?}"));
            }
            continue;
        }
        if open.is_empty() && !tags.is_empty() {
            return Err(format!("<{tag}> is a second root"));
        }
        let body = tag.strip_suffix('/').unwrap_or(tag);
        let (name, attributes) = body.split_once(' ').unwrap_or((body, ""));
        let attributes = read(attributes).map_err(|why| format!("<{tag}>: {why}"))?;
        let around = open.clone();
        tags.push(Tag {
            name: name.to_string(),
            attributes,
            around,
        });
        if !tag.ends_with('/') {
            open.push(name.to_string());
        }
    }
    text(rest, true)?;
    match open.is_empty() {
        true => Ok(tags),
        false => Err(format!("{open:?} left open")),
    }
}

fn text(text: &str, outside: bool) -> Result<(), String> {
    if outside && !text.trim().is_empty() {
        return Err(format!("`{text}` stands outside"));
    }
    if text.contains(|letter: char| letter.is_control() && letter != '\n') {
        return Err(format!("`{text}` has a control character"));
    }
    let known = |after: &str| {
        let names = ["amp;", "lt;", "gt;", "quot;"];
        names.iter().any(|name| after.starts_with(name))
    };
    match text.split('&').skip(1).find(|after| !known(after)) {
        None => Ok(()),
        Some(after) => Err(format!("`&{after}` is no entity")),
    }
}

/// Attributes, each `name="value"`, no name twice.
fn read(attributes: &str) -> Result<Vec<(String, String)>, String> {
    let mut found: Vec<(String, String)> = Vec::new();
    let mut rest = attributes.trim();
    while !rest.is_empty() {
        let (name, behind) = rest.split_once("=\"").ok_or("no value")?;
        let (value, behind) = behind.split_once('"').ok_or("a value has no end")?;
        if found.iter().any(|(before, _)| before == name) || name.contains(' ') {
            return Err(format!("`{name}` is no name here"));
        }
        text(value, false)?;
        found.push((name.to_string(), value.to_string()));
        rest = behind.trim_start();
    }
    Ok(found)
}

#[test]
fn sees_faults() {
    let head = "<!DOCTYPE html>\n";
    for good in ["<a/>", "<a x=\"1\" y=\"&quot;\"><b>c &amp; d</b>\n</a>\n"] {
        assert!(tags(&format!("{head}{good}")).is_ok(), "{good}");
    }
    for bad in [
        "<a>",
        "<a></b></a>",
        "<a/><b/>",
        "<a>x & y</a>",
        "<a x=\"1\" x=\"2\"/>",
        "<a x=1/>",
        "<a x=\"&b\"/>",
        "<a>\u{1}</a>",
        "<a/>text",
    ] {
        assert!(tags(&format!("{head}{bad}")).is_err(), "{bad}");
    }
    assert!(tags("<a/>").is_err());
}
