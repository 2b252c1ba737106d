//! What is measured, on what, and how.

use super::clock::{ROUND, ROUNDS};
use std::thread;

/// A few lines for the head of the tables.
pub fn about() -> String {
    let processor = std::fs::read_to_string("/proc/cpuinfo");
    let processor = processor.as_deref().ok().and_then(model);
    let cores = thread::available_parallelism().map_or(1, usize::from);
    format!(
        "\
- processor: {}, {cores} cores
- built with: {}, profile {}
- the port: {}
- the Rust: its own files, unchanged, in the same build
- measured: {ROUNDS} times a round of the port, one of question 1 and one of the Rust, each of at
  least {} µs; medians of the fastest quarter of these",
        processor.unwrap_or("unknown"),
        env!("BOARD_COMPILER"),
        env!("BOARD_PROFILE"),
        env!("BOARD_LIBRARY"),
        ROUND.as_micros(),
    )
}

/// The name of the first processor in the text of /proc/cpuinfo.
fn model(cpuinfo: &str) -> Option<&str> {
    let lines = cpuinfo.lines();
    let mut named = lines.filter_map(|line| line.split_once(':'));
    let (_, name) = named.find(|(key, _)| key.trim() == "model name")?;
    Some(name.trim())
}

#[cfg(test)]
mod tests {
    use super::model;

    #[test]
    fn the_first_processor_is_named() {
        let text = "processor\t: 0\nmodel name\t: First: 2 GHz\n\nmodel name\t: Second\n";
        assert_eq!(model(text), Some("First: 2 GHz"));
        assert_eq!(model("processor\t: 0\n"), None);
    }
}
