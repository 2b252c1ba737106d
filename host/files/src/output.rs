//! A file that is written beside its place, and put there at the end.

use crate::place::{is_special, place};
use std::error::Error;
use std::fmt;
use std::fs::{self, File, OpenOptions};
use std::io::{self, BufWriter, Write};
use std::path::{Path, PathBuf};
use std::sync::atomic::{AtomicU64, Ordering};

/// A file to be written. It takes its place with [`finish`](Self::finish); dropped before that, it
/// leaves what stood there, and nothing else.
///
/// What is no regular file (`/dev/stdout`, `/dev/null`, a pipe) is written as it comes.
#[derive(Debug)]
pub struct OutputFile {
    what: String,
    path: PathBuf,
    file: BufWriter<File>,
    beside: Option<Beside>,
}

/// A temporary file, removed when dropped.
#[derive(Debug)]
struct Beside {
    temporary: PathBuf,
    place: PathBuf,
}

impl Drop for Beside {
    fn drop(&mut self) {
        // Put in its place, it isn't there any more.
        let _ = fs::remove_file(&self.temporary);
    }
}

/// Why a file can't be written.
#[derive(Debug)]
pub struct CannotWrite {
    what: String,
    path: PathBuf,
    why: io::Error,
}

impl fmt::Display for CannotWrite {
    fn fmt(&self, f: &mut fmt::Formatter<'_>) -> fmt::Result {
        let Self { what, path, why } = self;
        write!(f, "{what} {} can't be written: {why}", path.display())
    }
}

impl Error for CannotWrite {}

impl CannotWrite {
    /// The same with the path behind: what can't be written to where, and why.
    #[must_use]
    pub fn to_where(&self) -> String {
        let Self { what, path, why } = self;
        format!("{what} can't be written to {}: {why}", path.display())
    }
}

impl OutputFile {
    /// A file at this path, which is what ("the picture") to its user.
    ///
    /// # Errors
    /// It can't be written: there is no such folder, no right to, no room for another file.
    pub fn prepare(what: &str, path: &Path) -> Result<Self, CannotWrite> {
        let (file, beside) = open(path).map_err(|why| CannotWrite {
            what: what.to_string(),
            path: path.to_path_buf(),
            why,
        })?;
        Ok(Self {
            what: what.to_string(),
            path: path.to_path_buf(),
            file: BufWriter::new(file),
            beside,
        })
    }

    /// Puts what was written in its place.
    ///
    /// # Errors
    /// It can't be written.
    pub fn finish(mut self) -> Result<(), CannotWrite> {
        self.put_in_place().map_err(|why| self.cannot(why))
    }

    /// Writes these bytes as the last, and puts all in its place.
    ///
    /// # Errors
    /// It can't be written.
    pub fn finish_with(mut self, bytes: &[u8]) -> Result<(), CannotWrite> {
        let written = self.file.write_all(bytes);
        written.map_err(|why| self.cannot(why))?;
        self.finish()
    }

    /// Where it is written, as its user named it.
    pub fn path(&self) -> &Path {
        &self.path
    }

    /// What is said of it if writing fails in this way.
    pub fn cannot(&self, why: io::Error) -> CannotWrite {
        CannotWrite {
            what: self.what.clone(),
            path: self.path.clone(),
            why,
        }
    }

    fn put_in_place(&mut self) -> io::Result<()> {
        self.file.flush()?;
        let Some(Beside { temporary, place }) = &self.beside else {
            return Ok(());
        };
        self.file.get_ref().sync_all()?;
        // A place that can't be taken, as a file that is mounted, may still be written to.
        fs::rename(temporary, place).or_else(|_| fs::copy(temporary, place).map(|_| ()))
    }
}

impl Write for OutputFile {
    fn write(&mut self, bytes: &[u8]) -> io::Result<usize> {
        self.file.write(bytes)
    }

    fn flush(&mut self) -> io::Result<()> {
        self.file.flush()
    }
}

fn open(path: &Path) -> io::Result<(File, Option<Beside>)> {
    if is_special(path) {
        // At the end: standard output may be a file, with answers in it.
        return Ok((OpenOptions::new().append(true).open(path)?, None));
    }
    let place = place(path)?;
    let old = match fs::metadata(&place) {
        Ok(about) if about.is_dir() => return Err(io::ErrorKind::IsADirectory.into()),
        Ok(about) => {
            // Whether it may be written.
            OpenOptions::new().write(true).open(&place)?;
            Some(about.permissions())
        }
        Err(_) => None,
    };
    let temporary = temporary(&place);
    let file = OpenOptions::new()
        .write(true)
        .create_new(true)
        .open(&temporary)?;
    let beside = Beside { temporary, place };
    if let Some(permissions) = old {
        file.set_permissions(permissions)?;
    }
    Ok((file, Some(beside)))
}

/// A name in the same folder that nothing else has.
fn temporary(place: &Path) -> PathBuf {
    static NUMBER: AtomicU64 = AtomicU64::new(0);
    let (process, number) = (std::process::id(), NUMBER.fetch_add(1, Ordering::Relaxed));
    place.with_file_name(format!(".carv-{process}-{number}.part"))
}
