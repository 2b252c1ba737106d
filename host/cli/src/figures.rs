//! Figures and long texts as a reader reads them.

pub use carv_text::figures::grouped;

/// A time in ms, with as many decimals as it needs.
pub fn ms(ns: u64) -> String {
    format!("{} ms", carv_text::figures::ms(ns))
}

/// A number of bytes.
pub fn bytes(number: u64) -> String {
    format!("{} B", grouped(number))
}

/// So many of something, of which there are `one` or `many`.
pub fn count(number: u64, one: &str, many: &str) -> String {
    let noun = if number == 1 { one } else { many };
    format!("{} {noun}", grouped(number))
}

/// A text in lines of at most 100 letters, each indented by so many blanks.
pub fn wrapped(text: &str, indent: usize) -> String {
    let lines = carv_text::figures::wrapped(text, 100 - indent);
    let lines = lines.iter().map(|line| format!("{:indent$}{line}\n", ""));
    lines.collect()
}

#[cfg(test)]
mod tests {
    use super::*;

    #[test]
    fn figures() {
        assert_eq!(ms(4_000_000), "4 ms");
        assert_eq!(ms(4_500_001), "4.500001 ms");
        assert_eq!(bytes(8_192), "8,192 B");
        assert_eq!(count(1, "call", "calls"), "1 call");
        assert_eq!(count(2_000, "call", "calls"), "2,000 calls");
    }

    #[test]
    fn long_texts_are_wrapped() {
        assert_eq!(wrapped("short", 2), "  short\n");
        let text = ["word"; 30].join(" ");
        let lines = wrapped(&text, 4);
        let lengths: Vec<usize> = lines.lines().map(str::len).collect();
        assert_eq!(lengths, [98, 58]);
        assert!(lines.lines().all(|line| line.starts_with("    word")));
    }
}
