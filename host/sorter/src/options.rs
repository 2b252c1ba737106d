//! What the program is called with.

use crate::dayfile::DAYS;
use carv_text::nearest::suggestion;
use std::ffi::OsString;
use std::path::PathBuf;

/// What is to be done.
#[derive(Debug, PartialEq, Eq)]
pub enum Command {
    /// Print help.
    Help,
    /// Print this day file.
    PrintDay(&'static str),
    /// Run a day.
    Run(Options),
}

/// How a day is run.
#[derive(Debug, PartialEq, Eq)]
pub struct Options {
    /// The day file; none for the sorter's own day.
    pub day: Option<PathBuf>,
    /// Where the picture is written.
    pub svg: PathBuf,
    /// A ms in the first period that the picture shows ms by ms.
    pub from: Option<String>,
    /// Where the list of calls is written.
    pub calls: Option<PathBuf>,
    /// Where the report is written as a page.
    pub html: Option<PathBuf>,
    /// Where the trace is written.
    pub trace: Option<PathBuf>,
}

const NAMES: [&str; 8] = [
    "--day",
    "--print-day",
    "--svg",
    "--from",
    "--calls",
    "--html",
    "--trace",
    "--help",
];

/// What these arguments ask for, without the program's own name.
pub fn parse(arguments: &[OsString]) -> Result<Command, String> {
    let words: Vec<_> = arguments.iter().map(|it| it.to_string_lossy()).collect();
    match words.iter().map(AsRef::as_ref).collect::<Vec<&str>>()[..] {
        ["--help" | "-h"] => Ok(Command::Help),
        ["--print-day"] => Ok(Command::PrintDay(DAYS[0].1)),
        ["--print-day", name] => day_of(name).map(Command::PrintDay),
        _ => options(arguments).map(Command::Run),
    }
}

fn day_of(name: &str) -> Result<&'static str, String> {
    let found = DAYS.iter().find(|(known, _)| *known == name);
    found.map(|(_, text)| *text).ok_or_else(|| {
        let near = suggestion(name, DAYS.map(|(known, _)| known));
        format!("there is no day `{name}` to print{near}")
    })
}

fn options(arguments: &[OsString]) -> Result<Options, String> {
    let mut options = Options {
        day: None,
        svg: PathBuf::from("sorter.svg"),
        from: None,
        calls: None,
        html: None,
        trace: None,
    };
    let mut arguments = arguments.iter();
    while let Some(name) = arguments.next() {
        let name = name.to_string_lossy();
        let mut value = || arguments.next().ok_or(format!("{name} needs a value"));
        match name.as_ref() {
            "--day" => options.day = Some(PathBuf::from(value()?)),
            "--svg" => options.svg = PathBuf::from(value()?),
            "--from" => options.from = Some(value()?.to_string_lossy().into_owned()),
            "--calls" => options.calls = Some(PathBuf::from(value()?)),
            "--html" => options.html = Some(PathBuf::from(value()?)),
            "--trace" => options.trace = Some(PathBuf::from(value()?)),
            "--help" | "-h" | "--print-day" => return Err(format!("{name} stands alone")),
            other => {
                let near = suggestion(other, NAMES);
                return Err(format!("there is no option `{other}`{near}"));
            }
        }
    }
    Ok(options)
}
