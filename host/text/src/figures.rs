//! Numbers and lines as text.

/// Nanoseconds in a ms.
const MS: u64 = 1_000_000;

/// A number with a comma before every three digits.
pub fn grouped(number: u64) -> String {
    let digits = number.to_string();
    let mut text = String::new();
    for (place, digit) in digits.chars().enumerate() {
        if place > 0 && (digits.len() - place).is_multiple_of(3) {
            text.push(',');
        }
        text.push(digit);
    }
    text
}

/// A time in ms, exact, with as many decimals as it needs.
pub fn ms(ns: u64) -> String {
    let whole = grouped(ns / MS);
    let decimals = format!("{:06}", ns % MS);
    match decimals.trim_end_matches('0') {
        "" => whole,
        decimals => format!("{whole}.{decimals}"),
    }
}

/// So many of something, whose name gets an s but for one.
pub fn counted(number: u64, name: &str) -> String {
    let s = if number == 1 { "" } else { "s" };
    format!("{} {name}{s}", grouped(number))
}

/// Three digits or so, and k, M or G for the rest.
pub fn short(number: u64) -> String {
    let (unit, letter) = match number {
        0..1_000 => return number.to_string(),
        1_000..1_000_000 => (1e3, "k"),
        1_000_000..1_000_000_000 => (1e6, "M"),
        _ => (1e9, "G"),
    };
    let figure = number as f64 / unit;
    let digits = if figure < 10.0 {
        2
    } else {
        usize::from(figure < 100.0)
    };
    format!("{figure:.digits$}{letter}")
}

/// A text in lines of at most this many characters; a longer word has a line of its own.
pub fn wrapped(text: &str, width: usize) -> Vec<String> {
    let mut lines = vec![String::new()];
    for word in text.split(' ') {
        let line = lines.last_mut().expect("there is a first");
        if line.is_empty() {
            line.push_str(word);
        } else if line.chars().count() + 1 + word.chars().count() <= width {
            line.push(' ');
            line.push_str(word);
        } else {
            lines.push(word.to_string());
        }
    }
    lines
}

/// A text of at most this many characters: what is longer ends with "…".
pub fn cut(text: &str, width: usize) -> String {
    if text.chars().count() <= width {
        return text.to_string();
    }
    let mut cut: String = text.chars().take(width.saturating_sub(1)).collect();
    cut.push('…');
    cut
}

/// A text of at most this many characters: of what is longer, beginning and end.
pub fn cut_inside(text: &str, width: usize) -> String {
    let length = text.chars().count();
    if length <= width {
        return text.to_string();
    }
    let end = width / 3;
    let begin = cut(text, width - end);
    begin + &text.chars().skip(length - end).collect::<String>()
}

#[cfg(test)]
mod tests {
    use super::*;

    #[test]
    fn numbers() {
        assert_eq!(grouped(0), "0");
        assert_eq!(grouped(999), "999");
        assert_eq!(grouped(18_446_744_073_709), "18,446,744,073,709");
        assert_eq!(ms(4_000_000), "4");
        assert_eq!(ms(1_234_300_000), "1,234.3");
        assert_eq!(ms(1), "0.000001");
        assert_eq!(ms(u64::MAX), "18,446,744,073,709.551615");
        assert_eq!(
            [7, 1_234, 65_432, 2_340_000].map(short),
            ["7", "1.23k", "65.4k", "2.34M"]
        );
        assert_eq!(short(123_400_000_000), "123G");
        assert_eq!(
            [1, 2_000].map(|n| counted(n, "call")),
            ["1 call", "2,000 calls"]
        );
    }

    #[test]
    fn lines() {
        assert_eq!(wrapped("one two three", 7), ["one two", "three"]);
        assert_eq!(wrapped("seventeen", 3), ["seventeen"]);
        assert_eq!(cut("größer", 6), "größer");
        assert_eq!(cut("größere", 6), "größe…");
        assert_eq!(cut_inside("a long name 17", 9), "a lon… 17");
        assert_eq!(cut_inside("a name 17", 9), "a name 17");
    }
}
