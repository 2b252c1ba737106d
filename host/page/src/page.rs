//! What stands in a report.

use crate::parts;
use crate::stamp::Stamp;

/// A report. Its parts are plain texts; [`html`](Self::html) makes a file of them.
#[derive(Clone, Debug, Default)]
pub struct Page {
    /// Its title.
    pub title: String,
    /// What the reader wants to know, the most important question first.
    pub questions: Vec<Question>,
    /// What was asked: the list's name, the command, how many calls and the like.
    pub asked: Vec<Fact>,
    /// The figures.
    pub tables: Vec<Table>,
    /// The picture.
    pub picture: Picture,
    /// The refusals that came.
    pub refusals: Vec<Refusal>,
    /// What happened when.
    pub events: Events,
    /// What the answers rest on.
    pub stamp: Stamp,
    /// The program that made the report, with its version.
    pub tool: String,
    /// When the report was made.
    pub made: String,
}

/// A question, with an answer for each of whom it is asked.
#[derive(Clone, Debug, Default)]
pub struct Question {
    /// The question, to which yes is the good answer.
    pub text: String,
    /// The answers.
    pub answers: Vec<Answer>,
    /// How the answers are to be read; may be empty.
    pub note: String,
}

/// An answer.
#[derive(Clone, Debug)]
pub struct Answer {
    /// Yes, no, or neither.
    pub mark: Mark,
    /// A sentence.
    pub text: String,
}

/// What an answer comes to. Of several the greatest counts.
#[derive(Clone, Copy, Debug, PartialEq, Eq, PartialOrd, Ord)]
pub enum Mark {
    /// Yes.
    Good,
    /// It can't be told.
    Unknown,
    /// No.
    Bad,
}

/// Something that was asked for, or counted.
#[derive(Clone, Debug)]
pub struct Fact {
    /// What it is.
    pub name: String,
    /// What is said of it.
    pub text: String,
    /// Whether it is to be read letter by letter, as a command.
    pub is_code: bool,
}

impl Fact {
    /// A fact in words.
    pub fn new(name: &str, text: impl Into<String>) -> Self {
        Self {
            name: name.to_string(),
            text: text.into(),
            is_code: false,
        }
    }

    /// A fact that is to be read letter by letter.
    pub fn code(name: &str, text: impl Into<String>) -> Self {
        Self {
            is_code: true,
            ..Self::new(name, text)
        }
    }
}

/// A table. The first cell of a row says whose row it is.
#[derive(Clone, Debug, Default)]
pub struct Table {
    /// What stands above it.
    pub heading: String,
    /// The columns.
    pub columns: Vec<Column>,
    /// The rows, a cell for each column.
    pub rows: Vec<Vec<String>>,
    /// How the figures are to be read, a sentence each.
    pub notes: Vec<String>,
}

/// A column of a table.
#[derive(Clone, Debug)]
pub struct Column {
    /// What stands above it.
    pub name: String,
    /// The unit of its figures; empty if there is none.
    pub unit: String,
    /// Where its cells are aligned.
    pub align: Align,
}

impl Column {
    /// A column of words.
    pub fn words(name: &str) -> Self {
        Self {
            name: name.to_string(),
            unit: String::new(),
            align: Align::Left,
        }
    }

    /// A column of figures, in this unit if it isn't empty.
    pub fn figures(name: &str, unit: &str) -> Self {
        Self {
            name: name.to_string(),
            unit: unit.to_string(),
            align: Align::Right,
        }
    }
}

/// Where cells are aligned.
#[derive(Clone, Copy, Debug, PartialEq, Eq)]
pub enum Align {
    /// At their begin: words.
    Left,
    /// At their end: figures.
    Right,
}

/// A picture, or why there is none.
#[derive(Clone, Debug)]
pub enum Picture {
    /// It was drawn.
    Drawn {
        /// SVG that fetches nothing, which is taken as it stands.
        svg: String,
        /// What it shows, in a sentence or two.
        caption: String,
        /// What it says, for readers who don't see it.
        alternative: String,
    },
    /// There is none, and why, in a sentence.
    Missing(String),
}

impl Default for Picture {
    fn default() -> Self {
        Self::Missing("No picture was drawn.".to_string())
    }
}

/// Refusals with one number.
#[derive(Clone, Debug)]
pub struct Refusal {
    /// The number.
    pub number: u64,
    /// What it means.
    pub meaning: String,
    /// What to do about it.
    pub advice: String,
    /// How often it came.
    pub times: u64,
    /// Where it came first: the line of the list, or the time.
    pub first: String,
}

/// What happened when.
#[derive(Clone, Debug, Default)]
pub struct Events {
    /// In the order in which it happened.
    pub events: Vec<Event>,
    /// How many more there were.
    pub left_out: u64,
}

/// Something that happened.
#[derive(Clone, Debug)]
pub struct Event {
    /// When, in ms; none if it was before the first tick.
    pub ms: Option<u64>,
    /// What, in a line.
    pub text: String,
}

impl Page {
    /// The page as one HTML file, which is well-formed XML too and fetches nothing.
    pub fn html(&self) -> String {
        parts::html(self)
    }
}
