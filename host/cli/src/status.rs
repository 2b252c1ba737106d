//! Exit statuses, and failures that end the tool.

use carv_files::CannotWrite;
use std::fmt;
use std::path::Path;
use std::process::ExitCode;

/// How the tool ended.
#[derive(Clone, Copy, Debug, PartialEq, Eq)]
#[repr(u8)]
pub enum Status {
    /// All lines were calls and all were accepted; the area is sound.
    Fine = 0,
    /// A file can't be read or written.
    File = 1,
    /// The tool was called wrongly.
    Usage = 2,
    /// Some call was refused.
    Refused = 3,
    /// Some line is no call.
    BadLine = 4,
    /// The area isn't sound.
    Unsound = 5,
    /// The library and the rules disagree on whether an area is sound.
    Disagree = 6,
    /// Ctrl-C ended it before its time.
    Interrupted = carv_interrupt::STATUS,
}

impl From<Status> for ExitCode {
    fn from(status: Status) -> Self {
        Self::from(status as u8)
    }
}

/// What ends the tool before its time: a sentence, and the status.
#[derive(Clone, Debug, PartialEq, Eq)]
pub struct Failure {
    /// The status.
    pub status: Status,
    /// What went wrong and what to do.
    pub says: String,
}

impl Failure {
    /// Called wrongly.
    pub fn usage(says: impl Into<String>) -> Self {
        Self {
            status: Status::Usage,
            says: says.into(),
        }
    }

    /// A file can't be written, as the error says.
    pub fn output(why: CannotWrite) -> Self {
        Self {
            status: Status::File,
            says: why.to_string(),
        }
    }

    /// A file, named by what it is to the tool, can't be read or written.
    pub fn file(what: &str, path: &Path, cannot: &str, why: impl fmt::Display) -> Self {
        Self {
            status: Status::File,
            says: format!("{what} {} can't be {cannot}: {why}", path.display()),
        }
    }
}
