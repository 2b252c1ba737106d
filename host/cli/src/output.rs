//! Standard output, buffered. A closed pipe is no failure.

use crate::status::{Failure, Status};
use std::fmt::Display;
use std::io::{self, BufWriter, ErrorKind, StdoutLock, Write};

/// Standard output.
pub struct Output {
    writer: BufWriter<StdoutLock<'static>>,
    is_closed: bool,
}

impl Output {
    /// Standard output, which nothing else may use meanwhile.
    pub fn new() -> Self {
        Self {
            writer: BufWriter::with_capacity(1 << 16, io::stdout().lock()),
            is_closed: false,
        }
    }

    /// Whether the reader of standard output has gone. From then on nothing is written.
    pub fn is_closed(&self) -> bool {
        self.is_closed
    }

    /// Writes a text as it is.
    pub fn text(&mut self, text: impl Display) -> Result<(), Failure> {
        let written = write!(self.writer, "{text}");
        self.note(written)
    }

    /// Writes a line.
    pub fn line(&mut self, line: impl Display) -> Result<(), Failure> {
        let written = writeln!(self.writer, "{line}");
        self.note(written)
    }

    /// Hands on what is buffered.
    pub fn flush(&mut self) -> Result<(), Failure> {
        let written = self.writer.flush();
        self.note(written)
    }

    fn note(&mut self, written: io::Result<()>) -> Result<(), Failure> {
        match written {
            _ if self.is_closed => Ok(()),
            Err(why) if why.kind() == ErrorKind::BrokenPipe => {
                self.is_closed = true;
                Ok(())
            }
            Err(why) => Err(Failure {
                status: Status::File,
                says: format!("standard output can't be written: {why}"),
            }),
            Ok(()) => Ok(()),
        }
    }
}

impl Default for Output {
    fn default() -> Self {
        Self::new()
    }
}
