//! A small writer of SVG.

use std::fmt::Write;

/// A picture that is being written.
pub struct Svg {
    body: String,
}

/// Where a text stands beside its point.
#[derive(Clone, Copy)]
pub enum Anchor {
    Start,
    Middle,
    End,
}

impl Anchor {
    fn name(self) -> &'static str {
        match self {
            Self::Start => "start",
            Self::Middle => "middle",
            Self::End => "end",
        }
    }
}

/// How a text looks.
#[derive(Clone, Copy)]
pub struct Type {
    pub size: u32,
    pub bold: bool,
    pub colour: &'static str,
}

/// A rectangle: left, top, width, height.
#[derive(Clone, Copy)]
pub struct Area(pub f64, pub f64, pub f64, pub f64);

impl Svg {
    pub fn new() -> Self {
        Self {
            body: String::new(),
        }
    }

    /// Adds an element as it stands.
    pub fn raw(&mut self, element: &str) {
        self.body.push_str(element);
        self.body.push('\n');
    }

    fn element(&mut self, element: std::fmt::Arguments<'_>) {
        writeln!(self.body, "{element}").expect("a string takes all text");
    }

    /// A filled rectangle, with further attributes.
    pub fn rect(&mut self, area: Area, fill: &str, more: &str) {
        let Area(x, y, width, height) = area;
        self.element(format_args!(
            r#"<rect x="{x:.1}" y="{y:.1}" width="{width:.1}" height="{height:.1}" fill="{fill}" {more}/>"#
        ));
    }

    /// Filled rectangles that look alike, as one element; nothing if there are none.
    pub fn rects(&mut self, areas: &[Area], fill: &str, more: &str) {
        let mut steps = String::new();
        for Area(x, y, width, height) in areas {
            write!(steps, "M{x:.1} {y:.1}h{width:.1}v{height:.1}h-{width:.1}z")
                .expect("a string takes all text");
        }
        if !areas.is_empty() {
            self.element(format_args!(r#"<path d="{steps}" fill="{fill}" {more}/>"#));
        }
    }

    /// Horizontal lines (left, right, height) that look alike, as one element.
    pub fn levels(&mut self, levels: &[(f64, f64, f64)], stroke: &str, more: &str) {
        let mut path = Path::new();
        for (left, right, y) in levels {
            path.move_to((*left, *y));
            path.right_by(right - left);
        }
        self.path(path, &format!(r#"fill="none" stroke="{stroke}" {more}"#));
    }

    /// Vertical lines (place, from, to) that look alike, as one element.
    pub fn uprights(&mut self, uprights: &[(f64, f64, f64)], stroke: &str, more: &str) {
        let mut path = Path::new();
        for (x, from, to) in uprights {
            path.move_to((*x, *from));
            path.down_by(to - from);
        }
        self.path(path, &format!(r#"fill="none" stroke="{stroke}" {more}"#));
    }

    /// Filled triangles that point upwards, each as high and wide as its area, as one element.
    pub fn triangles(&mut self, areas: &[Area], fill: &str, more: &str) {
        let mut path = Path::new();
        for Area(x, y, width, height) in areas {
            path.move_to((*x, y + height));
            path.line_by((width / 2.0, -height));
            path.line_by((width / 2.0, *height));
            path.close((*x, y + height));
        }
        self.path(path, &format!(r#"fill="{fill}" {more}"#));
    }

    fn path(&mut self, path: Path, attributes: &str) {
        if !path.steps.is_empty() {
            self.element(format_args!(r#"<path d="{}" {attributes}/>"#, path.steps));
        }
    }

    /// A line, with further attributes.
    pub fn line(&mut self, from: (f64, f64), to: (f64, f64), stroke: &str, more: &str) {
        self.element(format_args!(
            r#"<line x1="{:.1}" y1="{:.1}" x2="{:.1}" y2="{:.1}" stroke="{stroke}" {more}/>"#,
            from.0, from.1, to.0, to.1
        ));
    }

    pub fn text(&mut self, at: (f64, f64), anchor: Anchor, look: Type, text: &str) {
        let Type { size, bold, colour } = look;
        let weight = if bold { r#" font-weight="bold""# } else { "" };
        self.element(format_args!(
            r#"<text x="{:.1}" y="{:.1}" text-anchor="{}" font-size="{size}" fill="{colour}"{weight}>{}</text>"#,
            at.0,
            at.1,
            anchor.name(),
            escaped(text)
        ));
    }

    /// The whole file, of this size, on white.
    pub fn finish(self, width: f64, height: f64, title: &str) -> String {
        format!(
            r#"<?xml version="1.0" encoding="UTF-8"?>
<svg xmlns="http://www.w3.org/2000/svg" width="{width:.0}" height="{height:.0}" viewBox="0 0 {width:.0} {height:.0}" font-family="Helvetica, Arial, sans-serif" role="img">
<title>{}</title>
<rect width="100%" height="100%" fill="white"/>
{}</svg>
"#,
            escaped(title),
            self.body
        )
    }
}

/// A path, in steps from point to point: short texts, of which a picture has thousands. Points are
/// in tenths, so that what is cut off doesn't add up.
struct Path {
    steps: String,
    at: (i64, i64),
}

impl Path {
    fn new() -> Self {
        Self {
            steps: String::new(),
            at: (0, 0),
        }
    }

    fn add(&mut self, step: char, numbers: &[i64]) {
        self.steps.push(step);
        for (place, number) in numbers.iter().enumerate() {
            let between = if place > 0 && *number >= 0 { " " } else { "" };
            self.steps.push_str(between);
            self.steps.push_str(&decimal(*number));
        }
    }

    /// Begins a new part of the path.
    fn move_to(&mut self, to: (f64, f64)) {
        let to = (tenths(to.0), tenths(to.1));
        self.add('m', &[to.0 - self.at.0, to.1 - self.at.1]);
        self.at = to;
    }

    fn right_by(&mut self, width: f64) {
        self.at.0 += tenths(width);
        self.add('h', &[tenths(width)]);
    }

    fn down_by(&mut self, height: f64) {
        self.at.1 += tenths(height);
        self.add('v', &[tenths(height)]);
    }

    fn line_by(&mut self, (width, height): (f64, f64)) {
        let (width, height) = (tenths(width), tenths(height));
        self.at = (self.at.0 + width, self.at.1 + height);
        self.add('l', &[width, height]);
    }

    /// Ends a part of the path where it began.
    fn close(&mut self, begin: (f64, f64)) {
        self.at = (tenths(begin.0), tenths(begin.1));
        self.add('z', &[]);
    }
}

fn tenths(number: f64) -> i64 {
    (number * 10.0).round() as i64
}

/// So many tenths, as short as can be.
fn decimal(tenths: i64) -> String {
    let sign = if tenths < 0 { "-" } else { "" };
    match (tenths.abs() / 10, tenths.abs() % 10) {
        (whole, 0) => format!("{sign}{whole}"),
        (0, tenth) => format!("{sign}.{tenth}"),
        (whole, tenth) => format!("{sign}{whole}.{tenth}"),
    }
}

/// A text as XML has it. Characters that XML can't hold, and those that turn the direction of the text
/// around them, become U+FFFD.
fn escaped(text: &str) -> String {
    let mut escaped = String::new();
    for character in text.chars() {
        match character {
            '&' => escaped.push_str("&amp;"),
            '<' => escaped.push_str("&lt;"),
            '>' => escaped.push_str("&gt;"),
            '\u{0}'..'\u{20}' | '\u{fffe}' | '\u{ffff}' => escaped.push('\u{fffd}'),
            '\u{202a}'..='\u{202e}' | '\u{2066}'..='\u{2069}' => escaped.push('\u{fffd}'),
            other => escaped.push(other),
        }
    }
    escaped
}

#[cfg(test)]
mod tests {
    use super::*;

    #[test]
    fn text_is_escaped() {
        assert_eq!(
            escaped("a < b && c > \u{1}"),
            "a &lt; b &amp;&amp; c &gt; \u{fffd}"
        );
        assert_eq!(escaped("\u{202e}é\u{2069}号"), "\u{fffd}é\u{fffd}号");
    }

    #[test]
    fn alike_in_one_element() {
        let mut svg = Svg::new();
        svg.rects(&[], "red", "");
        svg.rects(
            &[Area(1.0, 2.0, 3.0, 4.0), Area(5.0, 6.0, 7.0, 8.0)],
            "red",
            "",
        );
        let text = svg.finish(10.0, 20.0, "t");
        assert_eq!(text.matches("<path").count(), 1);
        assert!(text.contains("M1.0 2.0h3.0v4.0h-3.0zM5.0 6.0h7.0v8.0h-7.0z"));
    }

    /// Steps of a third don't add up to another place.
    #[test]
    fn many_steps_stay_in_place() {
        let mut path = Path::new();
        for step in 0..300 {
            path.move_to((f64::from(step) / 3.0, 7.25));
            path.down_by(-0.5);
        }
        assert_eq!(path.at, (tenths(299.0 / 3.0), 73 - 5));
        assert!(
            path.steps.starts_with("m0 7.3v-.5m.3 .5v-.5m.4 .5"),
            "{}",
            path.steps
        );
        assert_eq!([-31, -4, 0, 120].map(decimal), ["-3.1", "-.4", "0", "12"]);
    }
}
