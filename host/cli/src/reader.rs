//! The lines of a list, read one by one in constant memory.

use std::io::{self, BufRead, ErrorKind};

/// The longest line, in bytes.
pub const LONGEST: usize = 1 << 16;

/// A list that is read line by line.
pub struct Reader<R> {
    source: R,
    line: Vec<u8>,
    bytes: u64,
}

/// What was read of a line.
#[derive(Debug, PartialEq, Eq)]
pub enum Read<'a> {
    /// All of it, without its end.
    Line(&'a [u8]),
    /// It has more than [`LONGEST`] bytes, which were skipped.
    TooLong,
    /// There are no more.
    End,
}

impl<R: BufRead> Reader<R> {
    /// The lines of this source.
    pub fn new(source: R) -> Self {
        Self {
            source,
            line: Vec::new(),
            bytes: 0,
        }
    }

    /// How many bytes were read.
    pub fn bytes(&self) -> u64 {
        self.bytes
    }

    /// The next line. Ctrl-C while it waits for one is an error of the kind `Interrupted`.
    pub fn line(&mut self) -> io::Result<Read<'_>> {
        let before = self.bytes;
        self.line.clear();
        let mut length = 0;
        loop {
            let buffer = match self.source.fill_buf() {
                Err(why) if is_nothing(&why) => continue,
                buffer => buffer?,
            };
            let end = buffer.iter().position(|byte| *byte == b'\n');
            let part = &buffer[..end.unwrap_or(buffer.len())];
            length += part.len();
            if length <= LONGEST {
                self.line.extend_from_slice(part);
            }
            let is_last = end.is_some() || buffer.is_empty();
            let used = part.len() + usize::from(end.is_some());
            self.source.consume(used);
            self.bytes += used as u64;
            if is_last {
                break;
            }
        }
        // Some editors begin a file with this mark.
        let mark: &[u8] = if before == 0 { b"\xef\xbb\xbf" } else { b"" };
        Ok(match length {
            _ if self.bytes == before => Read::End,
            0..=LONGEST => Read::Line(self.line.strip_prefix(mark).unwrap_or(&self.line)),
            _ => Read::TooLong,
        })
    }
}

/// A signal other than Ctrl-C is no reason to end.
fn is_nothing(why: &io::Error) -> bool {
    why.kind() == ErrorKind::Interrupted && !carv_interrupt::is_asked()
}

#[cfg(test)]
mod tests {
    use super::*;
    use std::io::BufReader;

    #[test]
    fn lines_of_any_length() {
        let long = vec![b'x'; LONGEST + 1];
        let fits = &long[1..];
        let text = [b"\xef\xbb\xbfopen\n\n", fits, b"\n", &long, b"\nlast"].concat();
        for buffer in [1, 7, 1 << 20] {
            let mut reader = Reader::new(BufReader::with_capacity(buffer, &text[..]));
            assert_eq!(reader.line().unwrap(), Read::Line(b"open"));
            assert_eq!(reader.line().unwrap(), Read::Line(b""));
            assert_eq!(reader.line().unwrap(), Read::Line(fits));
            assert_eq!(reader.line().unwrap(), Read::TooLong);
            assert_eq!(reader.line().unwrap(), Read::Line(b"last"));
            assert_eq!(reader.line().unwrap(), Read::End);
            assert_eq!(reader.bytes(), text.len() as u64);
        }
    }
}
