//! A small writer of HTML that is well-formed XML too.

/// Attributes of an element, with their values.
pub type Attributes<'a> = &'a [(&'a str, &'a str)];

/// Elements inside a line: a blank behind them would be seen.
const INLINE: [&str; 3] = ["strong", "span", "code"];

/// Markup that is being written.
#[derive(Default)]
pub struct Html {
    text: String,
}

impl Html {
    /// An element, and what is written inside it.
    pub fn element(&mut self, name: &str, attributes: Attributes, inside: impl FnOnce(&mut Self)) {
        self.begin(name, attributes, ">");
        inside(self);
        let end = if INLINE.contains(&name) { "" } else { "\n" };
        self.text.push_str(&format!("</{name}>{end}"));
    }

    /// An element with nothing but a text.
    pub fn leaf(&mut self, name: &str, attributes: Attributes, text: &str) {
        self.element(name, attributes, |html| html.text(text));
    }

    /// An element that can't have anything inside.
    pub fn void(&mut self, name: &str, attributes: Attributes) {
        self.begin(name, attributes, "/>\n");
    }

    fn begin(&mut self, name: &str, attributes: Attributes, end: &str) {
        self.text.push('<');
        self.text.push_str(name);
        for (attribute, value) in attributes {
            let value = escaped(value);
            self.text.push_str(&format!(" {attribute}=\"{value}\""));
        }
        self.text.push_str(end);
    }

    /// A text, whatever characters it has.
    pub fn text(&mut self, text: &str) {
        self.text.push_str(&escaped(text));
    }

    /// Markup as it stands.
    pub fn raw(&mut self, markup: &str) {
        self.text.push_str(markup);
    }

    /// All that was written.
    pub fn finish(self) -> String {
        self.text
    }
}

/// A text as HTML and XML have it. What they can't hold, and what turns the direction of the text
/// around it, becomes U+FFFD; ends of lines and tabs become blanks.
pub fn escaped(text: &str) -> String {
    let mut escaped = String::with_capacity(text.len());
    for character in text.chars() {
        match character {
            '&' => escaped.push_str("&amp;"),
            '<' => escaped.push_str("&lt;"),
            '>' => escaped.push_str("&gt;"),
            '"' => escaped.push_str("&quot;"),
            '\n' | '\r' | '\t' => escaped.push(' '),
            other if is_control(other) || is_no_character(other) => escaped.push('\u{fffd}'),
            other => escaped.push(other),
        }
    }
    escaped
}

fn is_control(character: char) -> bool {
    let turns = matches!(character, '\u{202a}'..='\u{202e}' | '\u{2066}'..='\u{2069}');
    turns || character.is_control()
}

/// Code points that stand for no character, two at the end of each plane among them.
fn is_no_character(character: char) -> bool {
    let point = u32::from(character);
    matches!(character, '\u{fdd0}'..='\u{fdef}') || point & 0xfffe == 0xfffe
}

#[cfg(test)]
mod tests {
    use super::*;

    #[test]
    fn texts_are_escaped() {
        assert_eq!(
            escaped("<b>&\" 'a'\n\u{1}\u{85}\u{202e}\u{fffe}\u{1ffff} é 号"),
            "&lt;b&gt;&amp;&quot; 'a' \u{fffd}\u{fffd}\u{fffd}\u{fffd}\u{fffd} é 号"
        );
    }

    #[test]
    fn elements() {
        let mut html = Html::default();
        html.element("p", &[("class", "a\"b")], |html| {
            html.text("1 < 2");
            html.void("br", &[]);
            html.leaf("strong", &[], "&");
        });
        let expected = "<p class=\"a&quot;b\">1 &lt; 2<br/>\n<strong>&amp;</strong></p>\n";
        assert_eq!(html.finish(), expected);
    }
}
