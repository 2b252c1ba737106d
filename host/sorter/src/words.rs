//! Numbers and names in sentences.

use carv_text::figures::grouped;

/// A number as a word, or in digits above ten.
pub fn in_words(number: usize) -> String {
    const WORDS: [&str; 11] = [
        "no", "one", "two", "three", "four", "five", "six", "seven", "eight", "nine", "ten",
    ];
    let word = WORDS.get(number).map(|word| word.to_string());
    word.unwrap_or_else(|| grouped(number as u64))
}

/// `no service`, `one service`, `two services`.
pub fn services(number: usize) -> String {
    let s = if number > 1 { "s" } else { "" };
    format!("{} service{s}", in_words(number))
}

/// A text that begins with a capital letter.
pub fn capital(text: &str) -> String {
    let mut letters = text.chars();
    let first = letters.next().map(char::to_uppercase);
    first.into_iter().flatten().chain(letters).collect()
}

#[cfg(test)]
mod tests {
    use super::*;

    #[test]
    fn sentences() {
        assert_eq!(
            [0, 1, 2, 10, 11, 1_000].map(in_words),
            ["no", "one", "two", "ten", "11", "1,000"]
        );
        assert_eq!(
            [0, 1, 2].map(services),
            ["no service", "one service", "two services"]
        );
        assert_eq!(capital("bag printer"), "Bag printer");
        assert_eq!(capital("übergabe"), "Übergabe");
        assert_eq!(capital(""), "");
    }
}
