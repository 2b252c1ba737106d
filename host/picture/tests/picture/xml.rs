//! Is a text well-formed XML? Enough of it for SVG: no comments, no entities of its own.

/// What is wrong with it, if something is.
pub fn fault(text: &str) -> Option<String> {
    let mut rest = text.strip_prefix("<?xml version=\"1.0\" encoding=\"UTF-8\"?>")?;
    let mut open: Vec<&str> = Vec::new();
    let mut roots = 0;
    while let Some(start) = rest.find('<') {
        let (between, tag) = rest.split_at(start);
        if let Some(fault) = text_fault(between, open.is_empty()) {
            return Some(fault);
        }
        let Some(end) = tag.find('>') else {
            return Some("a tag has no end".to_string());
        };
        let (tag, behind) = (&tag[1..end], &tag[end + 1..]);
        rest = behind;
        if let Some(name) = tag.strip_prefix('/') {
            if open.pop() != Some(name) {
                return Some(format!("</{name}> closes nothing"));
            }
            continue;
        }
        roots += usize::from(open.is_empty());
        let body = tag.strip_suffix('/').unwrap_or(tag);
        let (name, attributes) = body.split_once(' ').unwrap_or((body, ""));
        if let Some(fault) = attributes_fault(attributes) {
            return Some(format!("<{tag}>: {fault}"));
        }
        if !tag.ends_with('/') {
            open.push(name);
        }
    }
    if roots != 1 || !open.is_empty() {
        return Some(format!("{roots} roots, {open:?} left open"));
    }
    text_fault(rest, true)
}

fn text_fault(text: &str, outside: bool) -> Option<String> {
    if outside && !text.trim().is_empty() {
        return Some(format!("`{text}` stands outside"));
    }
    let bad = |character: char| character < ' ' && character != '\n';
    if text.contains(bad) || text.contains(['\u{fffe}', '\u{ffff}']) {
        return Some(format!("`{text}` has a character that XML can't hold"));
    }
    let mut after = text.split('&').skip(1);
    let known = |text: &str| {
        ["amp;", "lt;", "gt;"]
            .iter()
            .any(|name| text.starts_with(name))
    };
    let fault = after.find(|after| !known(after));
    fault.map(|after| format!("`&{after}` is no entity"))
}

/// Attributes are name="value", no name twice.
fn attributes_fault(text: &str) -> Option<String> {
    let mut names = Vec::new();
    let mut rest = text.trim();
    while !rest.is_empty() {
        let Some((name, behind)) = rest.split_once("=\"") else {
            return Some(format!("`{rest}` is no attribute"));
        };
        let Some((value, behind)) = behind.split_once('"') else {
            return Some(format!("the value of {name} has no end"));
        };
        if names.contains(&name) || name.is_empty() || name.contains(' ') {
            return Some(format!("`{name}` is no name here"));
        }
        if value.contains(['<', '&']) || value.contains("NaN") || value.contains("inf") {
            return Some(format!("{name} is `{value}`"));
        }
        names.push(name);
        rest = behind.trim_start();
    }
    None
}

#[test]
fn sees_faults() {
    let head = "<?xml version=\"1.0\" encoding=\"UTF-8\"?>";
    for good in ["<a/>", "<a x=\"1\" y=\"2\"><b>c &amp; d</b>\n</a>\n"] {
        assert_eq!(fault(&format!("{head}{good}")), None, "{good}");
    }
    for bad in [
        "",
        "<a>",
        "<a></b></a>",
        "<a/><b/>",
        "<a>x & y</a>",
        "<a x=\"1\" x=\"2\"/>",
        "<a x=1/>",
        "<a x=\"NaN\"/>",
        "<a>\u{1}</a>",
        "<a/>text",
    ] {
        assert!(fault(&format!("{head}{bad}")).is_some(), "{bad}");
    }
}
