//! Day files: the plan of a day as text, one thing a line. [`form::FORMS`] has the lines.

mod collect;
pub mod form;
mod line;
mod quantity;

use crate::plan::Plan;
use carv_text::line::BadLine;
use std::fmt;

/// The days that are kept, by their names: the first is run if no other is asked for.
pub const DAYS: [(&str, &str); 2] = [
    ("sorter", include_str!("../days/sorter.day")),
    ("starving", include_str!("../days/starving.day")),
];

/// The plan of the sorter's own day.
pub fn sorter() -> Plan {
    parse(DAYS[0].1).expect("the sorter's own day is a day file")
}

/// The plan that this text has, or its bad lines.
pub fn parse(text: &str) -> Result<Plan, Mistakes> {
    let mut collected = collect::Collected::default();
    let text = text.strip_prefix('\u{feff}').unwrap_or(text);
    for (number, line) in (1..).zip(text.lines()) {
        match line::parse(line) {
            Ok(None) => {}
            Ok(Some((form, line))) => collected.add(number, form, line),
            Err(bad) => collected.add_bad(number, line, bad),
        }
    }
    collected.plan()
}

/// The bad lines of a day file.
#[derive(Clone, Debug, Default, PartialEq, Eq)]
pub struct Mistakes {
    /// Their numbers, and what is wrong, by rising number: not all if there are very many.
    pub lines: Vec<(usize, BadLine)>,
    /// How many bad lines there are.
    pub count: usize,
}

impl Mistakes {
    /// The most that are kept, and that are told.
    const MOST_KEPT: usize = 2_000;
    const MOST_TOLD: usize = 10;

    fn add(&mut self, number: usize, bad: BadLine) {
        self.count += 1;
        if self.lines.len() < Self::MOST_KEPT {
            self.lines.push((number, bad));
        }
    }
}

impl fmt::Display for Mistakes {
    /// The first of them, each with the form that it should have on a line of its own.
    fn fmt(&self, f: &mut fmt::Formatter<'_>) -> fmt::Result {
        for (number, BadLine { why, form }) in self.lines.iter().take(Self::MOST_TOLD) {
            writeln!(f, "  line {number}: {why}")?;
            if let Some(form) = form {
                writeln!(f, "      the form is `{form}`")?;
            }
        }
        match self.count.saturating_sub(Self::MOST_TOLD) {
            0 => Ok(()),
            1 => writeln!(f, "  and one line more"),
            more => writeln!(f, "  and {more} lines more"),
        }
    }
}

#[cfg(test)]
mod tests;
