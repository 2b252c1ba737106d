//! Lines of a text that a program reads: numbers in them, and what is wrong with one.

use std::fmt;

/// Why a line says nothing that its reader understands.
#[derive(Clone, Debug, PartialEq, Eq)]
pub struct BadLine {
    /// What is wrong with it.
    pub why: String,
    /// The form that it should have, if it is known which.
    pub form: Option<String>,
}

impl BadLine {
    /// A bad line of no known form.
    pub fn new(why: impl Into<String>) -> Self {
        Self {
            why: why.into(),
            form: None,
        }
    }
}

impl fmt::Display for BadLine {
    fn fmt(&self, f: &mut fmt::Formatter<'_>) -> fmt::Result {
        f.write_str(&self.why)?;
        match &self.form {
            Some(form) => write!(f, "; the form is `{form}`"),
            None => Ok(()),
        }
    }
}

/// Why a word is no number.
#[derive(Clone, Copy, Debug, PartialEq, Eq)]
pub enum NoNumber {
    /// It isn't made of digits.
    Word,
    /// It is 2^64 or more.
    TooLarge,
}

impl fmt::Display for NoNumber {
    fn fmt(&self, f: &mut fmt::Formatter<'_>) -> fmt::Result {
        f.write_str(match self {
            Self::Word => "is no decimal number",
            Self::TooLarge => "is too large, numbers lie below 2^64",
        })
    }
}

/// A decimal number below 2^64. Between its digits `_` may stand.
pub fn number(word: &str) -> Result<u64, NoNumber> {
    let groups = word.split('_');
    let is_digits = |group: &str| !group.is_empty() && group.bytes().all(|it| it.is_ascii_digit());
    if !groups.into_iter().all(is_digits) {
        return Err(NoNumber::Word);
    }
    let digits = word.replace('_', "");
    digits.parse().map_err(|_| NoNumber::TooLarge)
}
