//! Reading a day file.

use std::fs::File;
use std::io::{self, Read, stdin};
use std::path::Path;

/// The most bytes of a day file.
const MOST_BYTES: u64 = 1 << 20;

/// The text of a day file; `-` is standard input.
pub fn text(path: &Path) -> Result<String, String> {
    let read = match path.to_str() {
        Some("-") => bytes(stdin().lock()),
        _ => File::open(path).and_then(bytes),
    };
    let failed = |why: String| format!("the day file {} can't be read: {why}", path.display());
    let bytes = read.map_err(|why| failed(why.to_string()))?;
    if bytes.len() as u64 > MOST_BYTES {
        return Err(failed("it has more than 1 MiB".to_string()));
    }
    String::from_utf8(bytes).map_err(|why| {
        let valid = &why.as_bytes()[..why.utf8_error().valid_up_to()];
        let line = 1 + valid.iter().filter(|byte| **byte == b'\n').count();
        failed(format!("line {line} is no UTF-8 text"))
    })
}

fn bytes(file: impl Read) -> io::Result<Vec<u8>> {
    let mut bytes = Vec::new();
    file.take(MOST_BYTES + 1).read_to_end(&mut bytes)?;
    Ok(bytes)
}
