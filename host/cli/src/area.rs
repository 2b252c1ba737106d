//! Kept boards: their bytes in files.

use crate::status::{Failure, Status};
use carv::{AREA_BYTES, Board};
use carv_files::OutputFile;
use carv_layout::sound;
use std::fs::File;
use std::io::Read;
use std::path::{Path, PathBuf};

/// A file that should hold a board.
pub struct AreaFile {
    path: PathBuf,
    length: u64,
    /// Its bytes; of a file that is too long, one more than a board has.
    pub bytes: Vec<u8>,
}

impl AreaFile {
    /// Reads a file.
    pub fn read(path: &Path) -> Result<Self, Failure> {
        let cannot = |why| Failure::file("the board", path, "read", why);
        let file = File::open(path).map_err(cannot)?;
        let length = file.metadata().map_err(cannot)?.len();
        let mut bytes = Vec::new();
        let most = AREA_BYTES as u64 + 1;
        file.take(most).read_to_end(&mut bytes).map_err(cannot)?;
        Ok(Self {
            path: path.to_path_buf(),
            length: length.max(bytes.len() as u64),
            bytes,
        })
    }

    /// The board, if it is sound.
    pub fn board(&self) -> Result<Board, Failure> {
        Board::from_bytes(&self.bytes).map_err(|_| {
            let path = self.path.display();
            let faults = sound::faults(&self.bytes);
            let first = faults.first().map(|fault| fault.says.clone());
            let why = self.wrong_length().or(first).unwrap_or_default();
            Failure {
                status: Status::Unsound,
                says: format!("{path} holds no sound board: {why}; `carv check {path}` says more"),
            }
        })
    }

    /// What is wrong with the length, if it isn't that of a board.
    pub fn wrong_length(&self) -> Option<String> {
        let length = self.length;
        (length != AREA_BYTES as u64)
            .then(|| format!("the file has {length} bytes, a kept board has {AREA_BYTES}"))
    }
}

/// Keeps a board in a file.
pub fn keep(board: &Board, file: OutputFile) -> Result<(), Failure> {
    if !board.is_sound() {
        let why = "no board was opened";
        return Err(Failure::file("the board", file.path(), "kept", why));
    }
    let kept = file.finish_with(board.as_bytes());
    kept.map_err(Failure::output)
}
