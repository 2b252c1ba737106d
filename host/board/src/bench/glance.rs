//! The ratios of each call on a full board, one line a call.

use super::line::cell;
use super::{Ids, Line};
use std::fmt;

/// Ratios around 1 that count as even.
const EVEN: std::ops::Range<f64> = 0.8..1.25;

/// The lines that are shown: of the full board, and of ticks with plannings on 127 threads.
pub fn is_shown(line: &Line) -> bool {
    let full = line.board == super::calls::board();
    let planned = line.board == "127 threads" && line.name.starts_with("tick, plan");
    line.rust.is_some() && line.ids == Ids::Dense && (full || planned)
}

/// A table of ratios. Nothing where no line is shown.
pub struct Glance<'a>(pub &'a [Line]);

impl fmt::Display for Glance<'_> {
    fn fmt(&self, f: &mut fmt::Formatter<'_>) -> fmt::Result {
        writeln!(
            f,
            "\
| at a glance: port ÷ Rust       | less question 1 |   whole | the port, less question 1 |
|--------------------------------|----------------:|--------:|---------------------------|"
        )?;
        for line in self.0.iter().filter(|line| is_shown(line)) {
            let (less, whole) = (less(line), cell(line.ratio(), 1));
            let (name, verdict) = (line.name, verdict(line));
            writeln!(f, "| {name:30} | {less:>15} | {whole:>7} | {verdict:25} |")?;
        }
        Ok(())
    }
}

/// The ratio without question 1; only a bound where that is all that can be told.
fn less(line: &Line) -> String {
    match (line.bounds(), line.ratio_less()) {
        (Some((low, high)), _) if low < 0.0 => format!("< {high:.2}"),
        (_, ratio) => cell(ratio, 2),
    }
}

/// How the port's call without question 1 compares.
fn verdict(line: &Line) -> String {
    match (line.bounds(), line.ratio_less()) {
        (Some((_, high)), _) if high < EVEN.start => "faster".to_string(),
        (Some((low, _)), Some(ratio)) if low > EVEN.end => format!("slower, {ratio:.1} times"),
        (Some((low, high)), _) if low >= EVEN.start && high <= EVEN.end => "about even".to_string(),
        (Some((_, high)), _) => format!("at most {high:.1} times"),
        _ => String::new(),
    }
}

#[cfg(test)]
mod tests {
    use super::*;
    use crate::bench::Less;

    fn line(port: f64, less: f64) -> Line {
        Line {
            board: super::super::calls::board(),
            ids: Ids::Dense,
            name: "start",
            port,
            less: Some(Less {
                time: less,
                off: 10.0,
            }),
            question: None,
            rust: Some(100.0),
        }
    }

    #[test]
    fn verdicts() {
        for (port, time, ratio, expected) in [
            (500.0, 50.0, "0.50", "faster"),
            (1_000.0, -3.0, "< 0.27", "faster"),
            (1_000.0, 79.0, "0.79", "at most 1.1 times"),
            (250.0, 100.0, "1.00", "about even"),
            (1_000.0, 260.0, "2.60", "slower, 2.6 times"),
            (9_000.0, 80.0, "< 2.70", "at most 2.7 times"),
        ] {
            let line = line(port, time);
            assert_eq!(
                (less(&line).as_str(), verdict(&line).as_str()),
                (ratio, expected)
            );
        }
    }

    #[test]
    fn only_lines_of_full_boards_beside_the_rust_are_shown() {
        let full = line(1_000.0, 100.0);
        let alone = Line {
            rust: None,
            ..full.clone()
        };
        let small = Line {
            board: "33 objects".to_string(),
            ..full.clone()
        };
        let table = Glance(&[full, alone, small]).to_string();
        assert_eq!(table.lines().count(), 3);
        assert!(table.contains("| start                          |            1.00 |    10.0 |"));
    }
}
