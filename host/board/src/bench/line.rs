//! The lines of the tables.

use super::Ids;
use std::fmt;

/// One line of a table: times in nanoseconds.
#[derive(Clone, Debug)]
pub struct Line {
    /// What the board has.
    pub board: String,
    /// How its ids lie.
    pub ids: Ids,
    /// The calls.
    pub name: &'static str,
    /// The port's time.
    pub port: f64,
    /// The port's time without what question 1 takes on the same area.
    pub less: Option<Less>,
    /// What question 1 takes on the same area, as often as the calls ask it.
    pub question: Option<f64>,
    /// The Rust's time.
    pub rust: Option<f64>,
}

/// A time without question 1.
#[derive(Clone, Copy, Debug)]
pub struct Less {
    /// The time.
    pub time: f64,
    /// How far it may be off, by what the rounds show.
    pub off: f64,
}

/// The head of a table.
pub const HEAD: &str = "\
| board                    | ids       | calls                          | port, ns | less question 1, ns | Rust, ns |  ratio | ratio less question 1 |
|--------------------------|-----------|--------------------------------|---------:|--------------------:|---------:|-------:|----------------------:|";

/// How far a time less question 1 may be off beside what its rounds show, as a part of the whole
/// time: question 1 doesn't take quite the same alone and in front of a call. Calls that take
/// next to nothing came out as low as -1.9 % of the whole.
const UNCERTAIN: f64 = 0.02;

impl Line {
    /// The port's time over the Rust's, if there is one.
    pub fn ratio(&self) -> Option<f64> {
        self.rust.map(|rust| self.port / rust)
    }

    /// The same without question 1.
    pub fn ratio_less(&self) -> Option<f64> {
        Some(self.less?.time / self.rust?)
    }

    /// The port's time over that of question 1.
    pub fn over_question(&self) -> Option<f64> {
        self.question.map(|question| self.port / question)
    }

    /// Between what the ratio without question 1 lies: the time is a difference of two long ones.
    pub fn bounds(&self) -> Option<(f64, f64)> {
        let (less, rust) = (self.less?, self.rust?);
        let uncertain = less.off + self.port * UNCERTAIN;
        let bounds = [less.time - uncertain, less.time + uncertain];
        Some(bounds.map(|time| time / rust).into())
    }
}

/// A figure, or nothing.
pub(super) fn cell(figure: Option<f64>, digits: usize) -> String {
    figure.map_or_else(String::new, |figure| format!("{figure:.digits$}"))
}

impl fmt::Display for Line {
    fn fmt(&self, f: &mut fmt::Formatter<'_>) -> fmt::Result {
        let Self {
            board, ids, name, ..
        } = self;
        write!(f, "| {board:24} | {ids:9} | {name:30} |")?;
        write!(f, " {:>8} |", cell(Some(self.port), 0))?;
        write!(f, " {:>19} |", cell(self.less.map(|less| less.time), 0))?;
        write!(f, " {:>8} |", cell(self.rust, 1))?;
        write!(f, " {:>6} |", cell(self.ratio(), 1))?;
        write!(f, " {:>21} |", cell(self.ratio_less(), 2))
    }
}
