//! The calls: one table of their names, arguments, answers and refusals, and how each is made. The
//! list's parser, the help and `carv calls` go by it.

mod objects;
mod threads;

use crate::answer::Answer;
use crate::codes::{self, CAUSES, KINDS, WAITS, Words};
use carv::{Board, Refusal};
use std::fmt;

/// What an argument is, which says by which words it may be given.
#[derive(Clone, Copy, Debug, PartialEq, Eq)]
pub enum Meaning {
    /// A number.
    Number,
    /// A time.
    Ns,
    /// An amount of memory.
    Bytes,
    /// The number of a tick.
    Tick,
    /// The id of an object.
    Object,
    /// The id of a thread.
    Thread,
    /// A kind of objects.
    Kind,
    /// A kind of waits.
    Wait,
    /// A cause of a thread's end.
    Cause,
    /// No or yes, 0 or 1.
    Flag,
}

impl Meaning {
    /// The words that may stand for a number.
    pub const fn words(self) -> Words {
        match self {
            Self::Number | Self::Ns | Self::Bytes | Self::Tick | Self::Flag => &[],
            Self::Object => &[("root", 1)],
            Self::Thread => &[("idle", u64::MAX)],
            Self::Kind => KINDS,
            Self::Wait => WAITS,
            Self::Cause => CAUSES,
        }
    }

    /// What it is in words, unless it is just a number.
    pub const fn text(self) -> Option<&'static str> {
        Some(match self {
            Self::Number => return None,
            Self::Ns => "in ns",
            Self::Bytes => "in bytes",
            Self::Tick => "a tick",
            Self::Object => "an object",
            Self::Thread => "a thread",
            Self::Kind => "a kind",
            Self::Wait => "a wait",
            Self::Cause => "a cause",
            Self::Flag => "0 or 1",
        })
    }
}

/// An argument of a call.
#[derive(Clone, Copy, Debug)]
pub struct Argument {
    /// Its name, as in `include/carv.h`.
    pub name: &'static str,
    /// What it is.
    pub meaning: Meaning,
    /// What it is if it is left out; none if it can't be.
    pub default: Option<u64>,
}

/// Short forms for the table.
const fn argument(name: &'static str, meaning: Meaning) -> Argument {
    Argument {
        name,
        meaning,
        default: None,
    }
}

const fn number(name: &'static str) -> Argument {
    argument(name, Meaning::Number)
}

const fn default(name: &'static str, default: u64) -> Argument {
    Argument {
        name,
        meaning: Meaning::Number,
        default: Some(default),
    }
}

const OBJECT: Argument = argument("id", Meaning::Object);
const THREAD: Argument = argument("id", Meaning::Thread);
const TIME: Argument = argument("time", Meaning::Ns);
const BYTES: Argument = argument("bytes", Meaning::Bytes);

/// A call's entry in the table.
pub struct Form {
    /// Its name, as in `include/carv.h` without `carv_`.
    pub name: &'static str,
    /// Its arguments.
    pub arguments: &'static [Argument],
    /// What it does.
    pub does: &'static str,
    /// What it answers.
    pub answers: &'static str,
    /// The numbers by which it refuses, but for 1.
    pub refusals: &'static [u64],
    /// Whether it is refused with 1 on a board that isn't open.
    pub asks_soundness: bool,
    make: fn(&mut Board, &[u64]) -> Result<Answer, Refusal>,
}

/// All calls, in the order of `include/carv.h`.
pub fn table() -> impl Iterator<Item = &'static Form> {
    objects::FORMS.iter().chain(&threads::FORMS)
}

/// The call of this name.
pub fn find(name: &str) -> Option<&'static Form> {
    table().find(|form| form.name == name)
}

impl Form {
    /// How many arguments must be given.
    pub fn needed(&self) -> usize {
        let needed = |argument: &&Argument| argument.default.is_none();
        self.arguments.iter().filter(needed).count()
    }
}

impl fmt::Display for Form {
    /// The form of its lines: `create KIND PAYER BACKING`. In brackets is what may be left out.
    fn fmt(&self, f: &mut fmt::Formatter<'_>) -> fmt::Result {
        f.write_str(self.name)?;
        for (place, argument) in self.arguments.iter().enumerate() {
            let bracket = if place == self.needed() { "[" } else { "" };
            write!(f, " {bracket}{}", argument.name.to_uppercase())?;
        }
        let has_defaults = self.needed() < self.arguments.len();
        f.write_str(if has_defaults { "]" } else { "" })
    }
}

/// A call to be made.
#[derive(Clone)]
pub struct Call {
    form: &'static Form,
    arguments: Vec<u64>,
    given: usize,
}

impl Call {
    /// A call with at least the arguments that it needs, and no more than it has; those left out get
    /// their defaults.
    pub(crate) fn new(form: &'static Form, mut arguments: Vec<u64>) -> Self {
        let given = arguments.len();
        let left_out = form.arguments.iter().skip(given);
        arguments.extend(left_out.filter_map(|argument| argument.default));
        Self {
            form,
            arguments,
            given,
        }
    }

    /// Its entry in the table.
    pub fn form(&self) -> &'static Form {
        self.form
    }

    /// Its arguments, with defaults for those that were left out.
    pub fn arguments(&self) -> &[u64] {
        &self.arguments
    }

    /// Makes it.
    pub fn make(&self, board: &mut Board) -> Result<Answer, Refusal> {
        (self.form.make)(board, &self.arguments)
    }
}

impl fmt::Display for Call {
    /// As a line of a list, with words where there are some.
    fn fmt(&self, f: &mut fmt::Formatter<'_>) -> fmt::Result {
        f.write_str(self.form.name)?;
        let arguments = self.form.arguments.iter().zip(&self.arguments);
        for (argument, value) in arguments.take(self.given) {
            match codes::word(argument.meaning.words(), *value) {
                Some(word) => write!(f, " {word}")?,
                None => write!(f, " {value}")?,
            }
        }
        Ok(())
    }
}

#[cfg(test)]
mod tests;
