//! Where a path leads.

use std::fs;
use std::io;
use std::path::{Path, PathBuf};

/// Links that are followed one behind the other to a file that isn't there yet.
const MOST_LINKS: usize = 40;

/// The process's own open files, whatever they are.
const OPEN: [&str; 4] = ["/dev/stdin", "/dev/stdout", "/dev/stderr", "/dev/fd"];

/// Whether a path leads to something that is written as it comes: a device, a pipe, or a file that is
/// open already (`/dev/stdout`).
pub fn is_special(path: &Path) -> bool {
    let is_open = OPEN.iter().any(|open| path.starts_with(open)) || path.starts_with("/proc");
    let about = fs::metadata(path);
    about.is_ok_and(|about| !about.is_dir() && (is_open || !about.is_file()))
}

/// The path without links of the file that a path leads to, which needn't be there yet; its folder
/// must be.
///
/// # Errors
/// The folder isn't there, or links go round.
pub fn place(path: &Path) -> io::Result<PathBuf> {
    let mut path = path.to_path_buf();
    for _ in 0..MOST_LINKS {
        if let Ok(place) = fs::canonicalize(&path) {
            return Ok(place);
        }
        let folder = match path.parent() {
            Some(folder) if folder != Path::new("") => fs::canonicalize(folder)?,
            _ => fs::canonicalize(".")?,
        };
        let Some(name) = path.file_name() else {
            return Err(io::ErrorKind::NotFound.into());
        };
        let place = folder.join(name);
        match fs::read_link(&place) {
            Ok(target) => path = folder.join(target),
            Err(_) => return Ok(place),
        }
    }
    Err(io::Error::other("its links go round"))
}
