//! Sentences on standard error. If that is closed, nobody reads them, which is no reason to stop.

use std::fmt::Display;
use std::io::{self, Write};

/// Writes a line.
pub fn say(line: impl Display) {
    say_text(format_args!("{line}\n"));
}

/// Writes a text as it is, without an end of its own.
pub fn say_text(text: impl Display) {
    let mut to = io::stderr().lock();
    let _ = write!(to, "{text}").and_then(|()| to.flush());
}
