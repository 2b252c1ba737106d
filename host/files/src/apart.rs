//! Files that must not be the same.

use crate::place::{is_special, place};
use std::error::Error;
use std::fmt;
use std::path::{Path, PathBuf};

/// One file for two things.
#[derive(Clone, Debug, PartialEq, Eq)]
pub struct SameFile {
    says: String,
}

impl fmt::Display for SameFile {
    fn fmt(&self, f: &mut fmt::Formatter<'_>) -> fmt::Result {
        f.write_str(&self.says)
    }
}

impl Error for SameFile {}

/// Refuses a written file that is the same as a read one or another written one, by whatever path.
/// Each comes with what it is ("the list"). Devices and pipes may be named more than once.
///
/// # Errors
/// The first two that are the same.
pub fn apart(read: &[(&str, &Path)], written: &[(&str, &Path)]) -> Result<(), SameFile> {
    let read_places: Vec<_> = read.iter().map(|(_, path)| file(path)).collect();
    let written_places = written.iter();
    let written_places = written_places.map(|(_, path)| file(path).filter(|_| !is_special(path)));
    let written_places: Vec<_> = written_places.collect();
    for (number, (what, path)) in written.iter().enumerate() {
        let Some(own) = &written_places[number] else {
            continue;
        };
        let same = |place: &Option<PathBuf>| place.as_ref() == Some(own);
        let path = path.display();
        if let Some(other) = read_places.iter().position(same) {
            let (other, _) = read[other];
            let says = format!("{what} would be written over {other}, {path}: name another file");
            return Err(SameFile { says });
        }
        if let Some(other) = written_places[..number].iter().position(same) {
            let (other, _) = written[other];
            let says =
                format!("{other} and {what} would both be written to {path}: name two files");
            return Err(SameFile { says });
        }
    }
    Ok(())
}

/// The file that a path leads to, if it is one, or may become one.
fn file(path: &Path) -> Option<PathBuf> {
    let place = place(path).ok()?;
    (!is_special(&place)).then_some(place)
}
