//! What stands where in a picture, read back from its text.

/// A box: left, top, right, bottom.
#[derive(Clone, Copy, Debug, PartialEq)]
pub struct Extent {
    pub left: f64,
    pub top: f64,
    pub right: f64,
    pub bottom: f64,
}

impl Extent {
    pub fn height(&self) -> f64 {
        self.bottom - self.top
    }
}

/// The elements of this name, as their text up to the next tag.
fn elements<'a>(svg: &'a str, name: &'a str) -> impl Iterator<Item = &'a str> {
    let open = format!("<{name} ");
    svg.split('<').filter_map(move |element| {
        let tag = open.strip_prefix('<').expect("it begins so");
        element.strip_prefix(tag)
    })
}

/// The value of an attribute.
fn value<'a>(element: &'a str, name: &str) -> Option<&'a str> {
    let begin = format!("{name}=\"");
    let start = element.find(&begin)? + begin.len();
    element[start..].split('"').next()
}

fn number(element: &str, name: &str) -> f64 {
    let value = value(element, name).expect("it is there");
    value.parse().expect("a number")
}

/// The texts that are these: where each stands.
pub fn texts(svg: &str, text: &str) -> Vec<(f64, f64)> {
    let is_it = |element: &&str| {
        element
            .split_once('>')
            .is_some_and(|(_, said)| said == text)
    };
    let found = elements(svg, "text").filter(is_it);
    let places = found.map(|element| (number(element, "x"), number(element, "y")));
    places.collect()
}

/// The upright lines: place, from, to.
pub fn uprights(svg: &str) -> Vec<(f64, f64, f64)> {
    let lines = elements(svg, "line");
    let upright = lines.filter(|line| number(line, "x1") == number(line, "x2"));
    let places = upright.map(|line| (number(line, "x1"), number(line, "y1"), number(line, "y2")));
    places.collect()
}

/// Where the circles are: the numbers of events.
pub fn circles(svg: &str) -> Vec<(f64, f64)> {
    let places = elements(svg, "circle").filter(|circle| circle.contains("r=\"8\""));
    let places = places.map(|circle| (number(circle, "cx"), number(circle, "cy")));
    places.collect()
}

/// The parts of all paths that have these words in their class.
pub fn shapes(svg: &str, classes: &[&str]) -> Vec<Extent> {
    let mut shapes = Vec::new();
    for path in elements(svg, "path") {
        let words: Vec<&str> = value(path, "class")
            .unwrap_or_default()
            .split(' ')
            .collect();
        if classes.iter().all(|class| words.contains(class)) {
            shapes.extend(parts(value(path, "d").expect("a path has steps")));
        }
    }
    shapes
}

/// The parts of a path of relative steps, each from where the one before ended, or from a place of its own.
fn parts(steps: &str) -> Vec<Extent> {
    let mut parts: Vec<Extent> = Vec::new();
    let (mut at, mut begin) = ((0.0, 0.0), (0.0, 0.0));
    for (letter, numbers) in split(steps) {
        match (letter, &numbers[..]) {
            ('M', [x, y]) => at = (*x, *y),
            ('m' | 'l', [x, y]) => at = (at.0 + x, at.1 + y),
            ('h', [x]) => at.0 += x,
            ('v', [y]) => at.1 += y,
            ('z', []) => at = begin,
            other => panic!("{other:?} is no step"),
        }
        if letter == 'm' || letter == 'M' {
            begin = at;
            parts.push(Extent {
                left: at.0,
                top: at.1,
                right: at.0,
                bottom: at.1,
            });
        }
        let part = parts.last_mut().expect("a path begins with m");
        (part.left, part.right) = (part.left.min(at.0), part.right.max(at.0));
        (part.top, part.bottom) = (part.top.min(at.1), part.bottom.max(at.1));
    }
    parts
}

/// The letters of a path, each with its numbers.
fn split(steps: &str) -> Vec<(char, Vec<f64>)> {
    let mut split: Vec<(char, String)> = Vec::new();
    for character in steps.chars() {
        match (character, split.last_mut()) {
            ('a'..='z' | 'M', _) => split.push((character, String::new())),
            ('-', Some((_, numbers))) => numbers.push_str(" -"),
            (_, Some((_, numbers))) => numbers.push(character),
            (_, None) => panic!("`{steps}` begins with no letter"),
        }
    }
    let parsed = |numbers: String| {
        let words = numbers.split_whitespace().map(str::to_string);
        words.map(|word| word.parse().expect("a number")).collect()
    };
    split
        .into_iter()
        .map(|(letter, numbers)| (letter, parsed(numbers)))
        .collect()
}

#[test]
fn paths_are_read() {
    let svg = r#"<path d="M1 2h3v4h-3zm4-1l.5-6.5l.5 6.5z" class="a b"/><path d="m0 0v1"/>"#;
    let read = shapes(svg, &["b"]);
    let places = read.iter().map(|e| [e.left, e.top, e.right, e.bottom]);
    let expected = [[1.0, 2.0, 4.0, 6.0], [5.0, -5.5, 6.0, 1.0]];
    assert_eq!(places.collect::<Vec<_>>(), expected);
    assert!(shapes(svg, &["a", "c"]).is_empty());
}
