//! What the tool is called with.

mod given;

use crate::help::Topic;
use crate::list;
use crate::report::Form;
use crate::status::Failure;
use carv_text::nearest::suggestion;
use given::Given;
use std::ffi::OsString;
use std::path::{Path, PathBuf};

/// What is to be done.
#[derive(Debug, PartialEq, Eq)]
pub enum Command {
    /// Print help.
    Help(Topic),
    /// Print the table of calls.
    Calls,
    /// Print a kept board.
    Dump(Kept),
    /// Check a kept board.
    Check(Kept),
    /// Replay a list, and report on it if that is asked for.
    Replay(Box<Replay>),
}

/// A kept board, and how it is looked at.
#[derive(Debug, PartialEq, Eq)]
pub struct Kept {
    /// Its file.
    pub path: PathBuf,
    /// As JSON or not.
    pub json: bool,
    /// With the names beside it.
    pub with_names: bool,
}

/// Which answers are printed.
#[derive(Clone, Copy, Debug, Default, PartialEq, Eq)]
pub enum Show {
    /// All.
    #[default]
    Answers,
    /// Those of refused calls.
    Refusals,
    /// None.
    Summary,
}

/// How a list is replayed.
#[derive(Debug, Default, PartialEq, Eq)]
pub struct Replay {
    list: Option<PathBuf>,
    /// Answers as JSON.
    pub json: bool,
    /// Whether the answers as JSON end with a line of the services, too.
    pub services: bool,
    /// Which answers.
    pub show: Show,
    /// Whether the tool goes on behind a bad line.
    pub skips_bad_lines: bool,
    /// The board to begin with.
    pub board: Option<PathBuf>,
    /// Where the board is kept in the end.
    pub keep: Option<PathBuf>,
    /// Whether the board is printed in the end.
    pub dump: bool,
    /// Where the picture is written.
    pub svg: Option<PathBuf>,
    /// Where the report is written as a page.
    pub html: Option<PathBuf>,
    /// A tick in the first period that the picture shows ms by ms.
    pub from: Option<u64>,
    title: Option<String>,
    /// Where the trace is written.
    pub trace: Option<PathBuf>,
    /// The report that is printed instead of answers and summary.
    pub report: Option<Form>,
}

impl Replay {
    /// The list's file; none for standard input.
    pub fn list_file(&self) -> Option<&Path> {
        self.list.as_deref()
    }

    /// Whether the list is standard input.
    pub fn reads_standard_input(&self) -> bool {
        self.list.is_none()
    }

    /// The picture's title.
    pub fn title(&self) -> String {
        let title = self.given_title();
        title.unwrap_or("Who ran when, against the share".to_string())
    }

    /// The title of picture and page, if one was given.
    pub fn given_title(&self) -> Option<String> {
        self.title.clone()
    }

    /// Whether a picture is drawn, in a file of its own or in a page.
    pub fn draws(&self) -> bool {
        self.svg.is_some() || self.html.is_some()
    }
}

/// The commands.
pub const COMMANDS: [&str; 6] = ["replay", "report", "dump", "check", "calls", "help"];

/// Options of `replay`; those that are true take a value.
const REPLAY: &[(&str, bool)] = &[
    ("--json", false),
    ("--services", false),
    ("--quiet", false),
    ("--silent", false),
    ("--bad-lines", true),
    ("--board", true),
    ("--keep", true),
    ("--dump", false),
    ("--svg", true),
    ("--html", true),
    ("--from", true),
    ("--title", true),
    ("--trace", true),
];
/// Options of `report`.
const REPORT: &[(&str, bool)] = &[
    ("--json", false),
    ("--csv", false),
    ("--html", true),
    ("--from", true),
    ("--title", true),
    ("--trace", true),
    ("--bad-lines", true),
    ("--board", true),
];
/// Options of `dump` and `check`.
const KEPT: &[(&str, bool)] = &[("--json", false), ("--names", false)];

/// What these arguments, without the tool's own name, ask for.
pub fn parse(arguments: &[OsString]) -> Result<Command, Failure> {
    let Some((command, rest)) = arguments.split_first() else {
        return Err(Failure::usage(
            "say what to do: replay, dump, check, calls or help",
        ));
    };
    let command = command.to_string_lossy();
    let wants_help = |it: &OsString| it == "--help" || it == "-h";
    match command.as_ref() {
        "help" => help(rest),
        "--help" | "-h" => Ok(Command::Help(Topic::Tool)),
        name if COMMANDS.contains(&name) && rest.iter().any(wants_help) => {
            Topic::of(name).map(Command::Help)
        }
        "replay" => replay(Given::parse("replay", rest, REPLAY)?),
        "report" => report(Given::parse("report", rest, REPORT)?),
        "dump" => kept("dump", rest).map(Command::Dump),
        "check" => kept("check", rest).map(Command::Check),
        "calls" => {
            let given = Given::parse("calls", rest, &[])?;
            given.at_most("calls", 0)?;
            Ok(Command::Calls)
        }
        other => {
            let near = suggestion(other, COMMANDS);
            Err(Failure::usage(format!(
                "there is no command `{other}`{near}"
            )))
        }
    }
}

fn help(rest: &[OsString]) -> Result<Command, Failure> {
    match rest {
        [] => Ok(Command::Help(Topic::Tool)),
        [topic] => Topic::of(&topic.to_string_lossy()).map(Command::Help),
        _ => Err(Failure::usage("`carv help` takes one topic")),
    }
}

fn kept(command: &str, rest: &[OsString]) -> Result<Kept, Failure> {
    let mut given = Given::parse(command, rest, KEPT)?;
    given.at_most(command, 1)?;
    let path = given.rest.pop().map(PathBuf::from).ok_or_else(|| {
        Failure::usage(format!("`carv {command}` needs the file of a kept board"))
    })?;
    Ok(Kept {
        path,
        json: given.has("--json"),
        with_names: given.has("--names"),
    })
}

/// The list's file; none for standard input.
fn list_file(given: &mut Given) -> Option<PathBuf> {
    let list = given.rest.pop().filter(|list| list != "-");
    list.map(PathBuf::from)
}

fn skips_bad_lines(given: &Given) -> Result<bool, Failure> {
    match given.text("--bad-lines")?.as_deref() {
        None | Some("stop") => Ok(false),
        Some("skip") => Ok(true),
        Some(other) => {
            let why = format!("--bad-lines is stop or skip, not `{other}`");
            Err(Failure::usage(why))
        }
    }
}

fn report(mut given: Given) -> Result<Command, Failure> {
    given.at_most("report", 1)?;
    let form = match (given.has("--json"), given.has("--csv")) {
        (false, false) => Form::Text,
        (true, false) => Form::Json,
        (false, true) => Form::Csv,
        (true, true) => {
            let why = "a report is JSON or CSV: give --json or --csv, not both";
            return Err(Failure::usage(why));
        }
    };
    let replay = Replay {
        list: list_file(&mut given),
        show: Show::Summary,
        skips_bad_lines: skips_bad_lines(&given)?,
        board: given.path("--board"),
        html: given.path("--html"),
        from: from(&given)?,
        title: given.text("--title")?,
        trace: given.path("--trace"),
        report: Some(form),
        ..Replay::default()
    };
    drawn(replay, "--html")
}

/// The tick behind `--from`.
fn from(given: &Given) -> Result<Option<u64>, Failure> {
    let from = given.text("--from")?;
    let from = from.map(|from| {
        let why = |why| Failure::usage(format!("the tick `{from}` behind --from {why}"));
        list::number(&from).map_err(why)
    });
    from.transpose()
}

/// A replay whose options fit together; these options name the file of the picture.
fn drawn(replay: Replay, options: &str) -> Result<Command, Failure> {
    if !replay.draws() && (replay.from.is_some() || replay.title.is_some()) {
        return Err(Failure::usage(format!(
            "--from and --title are about the picture: name its file with {options}"
        )));
    }
    Ok(Command::Replay(Box::new(replay)))
}

fn replay(mut given: Given) -> Result<Command, Failure> {
    given.at_most("replay", 1)?;
    let show = match (given.has("--silent"), given.has("--quiet")) {
        (true, _) => Show::Summary,
        (_, true) => Show::Refusals,
        _ => Show::Answers,
    };
    let replay = Replay {
        list: list_file(&mut given),
        json: given.has("--json"),
        services: given.has("--services"),
        show,
        skips_bad_lines: skips_bad_lines(&given)?,
        board: given.path("--board"),
        keep: given.path("--keep"),
        dump: given.has("--dump"),
        svg: given.path("--svg"),
        html: given.path("--html"),
        from: from(&given)?,
        title: given.text("--title")?,
        trace: given.path("--trace"),
        report: None,
    };
    if replay.services && !replay.json {
        return Err(Failure::usage(
            "--services is about the answers as JSON: give --json, too",
        ));
    }
    drawn(replay, "--svg")
}
