//! The files that a replay writes, prepared before its first call.

use crate::kept_names;
use crate::options::Replay;
use crate::status::Failure;
use carv_files::{OutputFile, apart, is_special};
use std::path::Path;

const LIST: &str = "the list";
const BOARD: &str = "the board";
const PICTURE: &str = "the picture";
const PAGE: &str = "the page";
const TRACE: &str = "the trace";
const NAMES: &str = "the names";

/// The files that a replay is asked for.
pub struct Files {
    /// The board.
    pub keep: Option<OutputFile>,
    /// The names beside it.
    pub names: Option<OutputFile>,
    /// The picture.
    pub svg: Option<OutputFile>,
    /// The page.
    pub html: Option<OutputFile>,
    /// The trace.
    pub trace: Option<OutputFile>,
}

impl Files {
    /// Prepares them. None of them may be the list, another of them or, but for the board, the one to
    /// begin with.
    pub fn prepare(options: &Replay) -> Result<Self, Failure> {
        let keep = options.keep.as_deref();
        let names = keep.filter(|path| !is_special(path)).map(kept_names::path);
        let written = [
            (BOARD, keep),
            (NAMES, names.as_deref()),
            (PICTURE, options.svg.as_deref()),
            (PAGE, options.html.as_deref()),
            (TRACE, options.trace.as_deref()),
        ];
        are_apart(options, &written)?;
        let [keep, names, svg, html, trace] = written.map(|(what, path)| {
            let file = path.map(|path| OutputFile::prepare(what, path));
            file.transpose().map_err(Failure::output)
        });
        Ok(Self {
            keep: keep?,
            names: names?,
            svg: svg?,
            html: html?,
            trace: trace?,
        })
    }

    /// Whether board, picture or page are wanted.
    pub fn are_wanted(&self) -> bool {
        self.keep.is_some() || self.svg.is_some() || self.html.is_some()
    }
}

fn are_apart(options: &Replay, written: &[(&str, Option<&Path>)]) -> Result<(), Failure> {
    let list = options.list_file().unwrap_or(Path::new("/dev/stdin"));
    // A board that is gone on with may be kept in its own file.
    let board = options.board.as_deref();
    let board = board.filter(|board| !is_kept_in(board, options));
    let names = board.map(kept_names::path);
    let read = [
        (LIST, Some(list)),
        ("the board to begin with", board),
        ("its names", names.as_deref()),
    ];
    apart(&there(&read), &there(written)).map_err(|why| Failure::usage(why.to_string()))
}

fn is_kept_in(board: &Path, options: &Replay) -> bool {
    let keep = options.keep.as_deref();
    keep.is_some_and(|keep| apart(&[(BOARD, board)], &[(BOARD, keep)]).is_err())
}

fn there<'a>(files: &[(&'a str, Option<&'a Path>)]) -> Vec<(&'a str, &'a Path)> {
    let there = files.iter();
    there
        .filter_map(|(what, path)| Some((*what, (*path)?)))
        .collect()
}
