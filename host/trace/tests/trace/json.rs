//! A reader of JSON, strict in what it takes.

use std::collections::BTreeMap;
use std::iter::Peekable;
use std::str::Chars;

/// A JSON value. Numbers are as they are written, so that decimals stay exact.
#[derive(Clone, Debug, PartialEq)]
pub enum Value {
    Word(String),
    Number(String),
    Text(String),
    List(Vec<Value>),
    Object(BTreeMap<String, Value>),
}

/// The value that this text is.
///
/// # Panics
/// If it is none.
pub fn parse(text: &str) -> Value {
    let mut reader = Reader(text.chars().peekable());
    let value = reader.value();
    assert_eq!(reader.next(), None, "something stands behind the value");
    value
}

impl Value {
    pub fn get(&self, field: &str) -> Option<&Self> {
        match self {
            Self::Object(fields) => fields.get(field),
            _ => None,
        }
    }

    pub fn text(&self) -> &str {
        match self {
            Self::Text(text) => text,
            other => panic!("no text: {other:?}"),
        }
    }

    pub fn number(&self) -> &str {
        match self {
            Self::Number(number) => number,
            other => panic!("no number: {other:?}"),
        }
    }

    pub fn whole(&self) -> u64 {
        self.number().parse().expect("a whole number")
    }

    /// A number of a unit in which `digits` decimals are allowed, in the smallest part of it.
    pub fn scaled(&self, digits: usize) -> u64 {
        let text = self.number();
        let (whole, decimals) = text.split_once('.').unwrap_or((text, ""));
        assert!(decimals.len() <= digits, "{text}");
        let all = format!("{whole}{decimals:0<digits$}");
        all.parse().expect("digits alone")
    }
}

struct Reader<'a>(Peekable<Chars<'a>>);

impl Reader<'_> {
    /// The next character that is no space.
    fn next(&mut self) -> Option<char> {
        while self.0.next_if(|it| " \n\r\t".contains(*it)).is_some() {}
        self.0.next()
    }

    fn peek(&mut self) -> Option<char> {
        while self.0.next_if(|it| " \n\r\t".contains(*it)).is_some() {}
        self.0.peek().copied()
    }

    fn expect(&mut self, wanted: char) {
        assert_eq!(self.next(), Some(wanted));
    }

    fn value(&mut self) -> Value {
        match self.peek().expect("a value") {
            '{' => self.object(),
            '[' => self.list(),
            '"' => Value::Text(self.string()),
            '-' | '0'..='9' => self.number(),
            _ => self.word(),
        }
    }

    fn object(&mut self) -> Value {
        let mut fields = BTreeMap::new();
        self.expect('{');
        while self.peek() != Some('}') {
            if !fields.is_empty() {
                self.expect(',');
            }
            self.peek();
            let name = self.string();
            self.expect(':');
            let value = self.value();
            assert_eq!(fields.insert(name, value), None, "a field stands twice");
        }
        self.expect('}');
        Value::Object(fields)
    }

    fn list(&mut self) -> Value {
        let mut values = Vec::new();
        self.expect('[');
        while self.peek() != Some(']') {
            if !values.is_empty() {
                self.expect(',');
            }
            values.push(self.value());
        }
        self.expect(']');
        Value::List(values)
    }

    fn string(&mut self) -> String {
        let mut text = String::new();
        assert_eq!(self.0.next(), Some('"'));
        loop {
            match self.0.next().expect("the end of a string") {
                '"' => return text,
                '\\' => text.push(self.escaped()),
                letter => {
                    assert!(letter >= ' ', "a bare control character");
                    text.push(letter);
                }
            }
        }
    }

    fn escaped(&mut self) -> char {
        match self.0.next().expect("what is escaped") {
            letter @ ('"' | '\\' | '/') => letter,
            'n' => '\n',
            'r' => '\r',
            't' => '\t',
            'u' => {
                let digits: String = (0..4).filter_map(|_| self.0.next()).collect();
                let code = u32::from_str_radix(&digits, 16).expect("four hex digits");
                char::from_u32(code).expect("no surrogate")
            }
            other => panic!("\\{other} is no escape"),
        }
    }

    /// Digits without a 0 in front, and decimals.
    fn number(&mut self) -> Value {
        let mut text = String::new();
        while let Some(letter) = self.0.next_if(|it| "+-.eE0123456789".contains(*it)) {
            text.push(letter);
        }
        let (whole, decimals) = text.split_once('.').unwrap_or((&text, "0"));
        let is_digits = |it: &str| !it.is_empty() && it.bytes().all(|it| it.is_ascii_digit());
        assert!(is_digits(whole) && is_digits(decimals), "{text}");
        assert!(whole == "0" || !whole.starts_with('0'), "{text}");
        Value::Number(text)
    }

    fn word(&mut self) -> Value {
        let mut text = String::new();
        while let Some(letter) = self.0.next_if(char::is_ascii_alphabetic) {
            text.push(letter);
        }
        assert!(["true", "false", "null"].contains(&text.as_str()), "{text}");
        Value::Word(text)
    }
}

#[test]
fn values_are_read() {
    let value = parse(" {\"a\\\"\\u00e9\": [1, 2.50, \"ü\"], \"b\": {}, \"c\": null}\n");
    let list = value.get("a\"é").expect("the list");
    let numbers = ["1", "2.50"].map(|it| Value::Number(it.to_string()));
    let text = Value::Text("ü".to_string());
    assert_eq!(list, &Value::List([&numbers[..], &[text]].concat()));
    assert_eq!(parse("12.34").scaled(3), 12_340);
    for bad in [
        "{\"a\":1,}",
        "[1 2]",
        "01",
        "1.",
        "{\"a\":1,\"a\":2}",
        "[",
        "\"\n\"",
        "1 1",
    ] {
        let read = std::panic::catch_unwind(|| parse(bad));
        assert!(read.is_err(), "{bad}");
    }
}
