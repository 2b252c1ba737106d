//! Names beside a kept board: those that its list gave, in lines as in a list, in FILE.names.

use crate::list::{self, BadLine, Line};
use crate::names::Names;
use crate::options::Kept;
use crate::reader::{Read, Reader};
use crate::status::Failure;
use carv_files::OutputFile;
use carv_text::say;
use std::fs::{self, File};
use std::io::{self, BufReader, ErrorKind};
use std::path::{Path, PathBuf};

/// The file of the names beside a board's file.
pub fn path(board: &Path) -> PathBuf {
    let mut path = board.as_os_str().to_os_string();
    path.push(".names");
    path.into()
}

/// The names beside a board that is looked at, if they are asked for.
pub fn of(kept: &Kept) -> Names {
    match kept.with_names {
        true => read(&kept.path),
        false => Names::default(),
    }
}

/// Tells of names beside a board that is looked at, if they aren't asked for.
pub fn tell(kept: &Kept) {
    let path = path(&kept.path);
    if !kept.with_names && path.is_file() {
        say(format_args!(
            "carv: budgets have names in {}; --names shows them",
            path.display()
        ));
    }
}

/// The names beside a board's file, none if there are none. What is wrong with them is said.
pub fn read(board: &Path) -> Names {
    let path = path(board);
    let mut names = Names::default();
    match File::open(&path).and_then(|file| read_from(file, &mut names)) {
        Ok(bad) => say_bad(&path, &bad),
        Err(why) if why.kind() == ErrorKind::NotFound => {}
        Err(why) => say(format_args!(
            "carv: the names {} can't be read: {why}",
            path.display()
        )),
    }
    names
}

/// Reads names, and answers the lines that are none.
fn read_from(file: File, names: &mut Names) -> io::Result<Vec<(u64, BadLine)>> {
    let mut reader = Reader::new(BufReader::new(file));
    let mut bad = Vec::new();
    for number in 1.. {
        let line = match reader.line()? {
            Read::End => break,
            Read::Line(line) => list::parse(line),
            Read::TooLong => Err(BadLine::new("the line is too long")),
        };
        match line {
            Ok(Line::Nothing) => {}
            Ok(Line::Name(id, name)) => names.set(id, &name),
            Ok(Line::Call(_)) => bad.push((number, BadLine::new("a call, and no name"))),
            Err(why) => bad.push((number, why)),
        }
    }
    Ok(bad)
}

fn say_bad(path: &Path, bad: &[(u64, BadLine)]) {
    let Some((number, why)) = bad.first() else {
        return;
    };
    let more = match bad.len() {
        1 => "it is left out".to_string(),
        count => format!("it is left out, and {} more", count - 1),
    };
    let path = path.display();
    say(format_args!(
        "carv: the names {path}: line {number}: {why}; {more}"
    ));
}

/// Keeps the names that were given; the file of an earlier run goes if there are none.
pub fn keep(names: &Names, file: OutputFile) -> Result<(), Failure> {
    let lines = names
        .given()
        .map(|(id, name)| format!("name {id} {name}\n"));
    let lines: String = lines.collect();
    if !lines.is_empty() {
        return file.finish_with(lines.as_bytes()).map_err(Failure::output);
    }
    match fs::remove_file(file.path()) {
        Err(why) if why.kind() != ErrorKind::NotFound => {
            Err(Failure::file("the names", file.path(), "removed", why))
        }
        _ => Ok(()),
    }
}
