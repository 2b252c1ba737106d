//! Runs a day, prints its account, and writes its picture, its calls, its page and its trace.

use carv_files::{CannotWrite, OutputFile, apart};
use carv_picture::SHOWN;
use sorter::dayfile::{self, Mistakes};
use sorter::help::help;
use sorter::options::{self, Command, Options};
use sorter::page;
use sorter::picture::{self, begins};
use sorter::plan::Plan;
use sorter::record::Day;
use sorter::report::{self, About};
use sorter::{day, read, trace};
use std::ffi::OsString;
use std::io::{ErrorKind, Write};
use std::path::{Path, PathBuf};
use std::process::ExitCode;

/// Exit statuses.
const FAILED: u8 = 1;
const CALLED_WRONGLY: u8 = 2;
const NOT_AS_PLANNED: u8 = 3;

/// What ends the program before its time: its exit status, and what it says.
struct Failure(u8, String);

impl From<String> for Failure {
    /// A file can't be read or written, or the board fails.
    fn from(why: String) -> Self {
        Self(FAILED, why)
    }
}

fn main() -> ExitCode {
    let arguments: Vec<OsString> = std::env::args_os().skip(1).collect();
    let command = options::parse(&arguments).map_err(called_wrongly);
    match command.and_then(|command| run(&command)) {
        Ok(status) => ExitCode::from(status),
        Err(Failure(status, why)) => {
            // Where standard error is closed there is nobody to be told.
            let _ = writeln!(std::io::stderr(), "sorter: {why}");
            ExitCode::from(status)
        }
    }
}

fn called_wrongly(why: String) -> Failure {
    let end = if why.ends_with('?') { "" } else { ";" };
    Failure(CALLED_WRONGLY, format!("{why}{end} see sorter --help"))
}

fn interrupted() -> Failure {
    let says = "interrupted before the day was over: no file is written";
    Failure(carv_interrupt::STATUS, says.to_string())
}

/// Does what is to be done, and answers the exit status.
fn run(command: &Command) -> Result<u8, Failure> {
    match command {
        Command::Help => print(&help()).map(|()| 0),
        Command::PrintDay(text) => print(text).map(|()| 0),
        Command::Run(options) => run_day(options),
    }
}

/// Runs a day.
fn run_day(options: &Options) -> Result<u8, Failure> {
    let plan = plan(options.day.as_deref())?;
    let from = from(options, &plan)?;
    carv_interrupt::watch();
    let files = Files::prepare(options)?;
    let day = day::run_while(&plan, || !carv_interrupt::is_asked());
    let day = day.map_err(|refusal| format!("{refusal}. {}", refusal.advice()))?;
    let day = day.ok_or_else(interrupted)?;
    print(&(report::report(&day) + "\n\n"))?;
    write(files.svg, "The picture", || picture::draw(&day, from))?;
    if let Some(file) = files.calls {
        write(file, "The list of calls", || day.calls.join("\n") + "\n")?;
    }
    if let Some(file) = files.html {
        write(file, "The page", || page::html(&day, from))?;
    }
    if let Some(file) = files.trace {
        let path = file.path().to_path_buf();
        let written = trace::write(&day, file);
        told("The trace", &path, written)?;
    }
    Ok(status(&day))
}

/// The files that are written.
struct Files {
    svg: OutputFile,
    calls: Option<OutputFile>,
    html: Option<OutputFile>,
    trace: Option<OutputFile>,
}

impl Files {
    /// Prepares them before the day is run. None of them may be the day file, or another of them.
    fn prepare(options: &Options) -> Result<Self, Failure> {
        let (svg, calls) = ("the picture", "the list of calls");
        let (html, trace) = ("the page", "the trace");
        let written = [
            (svg, Some(&options.svg)),
            (calls, options.calls.as_ref()),
            (html, options.html.as_ref()),
            (trace, options.trace.as_ref()),
        ];
        let written = written
            .into_iter()
            .filter_map(|(what, path)| Some((what, path?.as_path())));
        let day = options
            .day
            .as_deref()
            .filter(|path| *path != Path::new("-"));
        let read = day.map(|path| ("the day file", path));
        let read: Vec<_> = read.into_iter().collect();
        let written: Vec<_> = written.collect();
        apart(&read, &written).map_err(|why| called_wrongly(why.to_string()))?;
        let prepare = |what: &str, path: &PathBuf| {
            let file = OutputFile::prepare(what, path);
            file.map_err(|why| Failure(FAILED, why.to_where()))
        };
        let calls = options.calls.as_ref().map(|path| prepare(calls, path));
        let html = options.html.as_ref().map(|path| prepare(html, path));
        let trace = options.trace.as_ref().map(|path| prepare(trace, path));
        Ok(Self {
            svg: prepare(svg, &options.svg)?,
            calls: calls.transpose()?,
            html: html.transpose()?,
            trace: trace.transpose()?,
        })
    }
}

/// The plan in this day file, or the sorter's own.
fn plan(path: Option<&Path>) -> Result<Plan, Failure> {
    let Some(path) = path else {
        return Ok(dayfile::sorter());
    };
    let text = read::text(path)?;
    dayfile::parse(&text).map_err(|mistakes| bad_lines(path, &mistakes))
}

fn bad_lines(path: &Path, mistakes: &Mistakes) -> Failure {
    let path = path.display();
    let lines = match mistakes.count {
        1 => "a bad line".to_string(),
        count => format!("{count} bad lines"),
    };
    Failure(
        CALLED_WRONGLY,
        format!("the day file {path} has {lines}:\n{mistakes}Nothing was run; see sorter --help"),
    )
}

/// The tick that the picture begins with.
fn from(options: &Options, plan: &Plan) -> Result<u64, Failure> {
    let Some(from) = &options.from else {
        return Ok(plan.show);
    };
    let begins = begins(plan.periods);
    let tick = from.parse().ok().filter(|tick| begins.contains(tick));
    tick.ok_or_else(|| {
        let (first, latest) = (begins.start(), begins.end());
        called_wrongly(format!(
            "`{from}` is no ms from which {SHOWN} periods follow, {first} to {latest} are"
        ))
    })
}

/// The exit status of a day.
fn status(day: &Day) -> u8 {
    let failed = |about: About| {
        let mut checks = report::checks(day).into_iter();
        checks.any(|check| check.about == about && !check.holds)
    };
    let refused = day.noted.iter().any(|noted| noted.refused.is_some());
    match () {
        () if failed(About::Board) => FAILED,
        () if refused || failed(About::Plan) => NOT_AS_PLANNED,
        () => 0,
    }
}

/// Writes a file and says so.
fn write(file: OutputFile, what: &str, text: impl FnOnce() -> String) -> Result<(), Failure> {
    let path = file.path().to_path_buf();
    told(what, &path, file.finish_with(text().as_bytes()))
}

/// Says where a file is, if it could be written.
fn told(what: &str, path: &Path, written: Result<(), CannotWrite>) -> Result<(), Failure> {
    written.map_err(|why| Failure(FAILED, why.to_where()))?;
    print(&format!("{what} is in {}.\n", path.display()))
}

/// Prints to standard output. If its reader has gone, the rest is for nobody.
fn print(text: &str) -> Result<(), Failure> {
    match std::io::stdout().write_all(text.as_bytes()) {
        Err(why) if why.kind() != ErrorKind::BrokenPipe => Err(Failure(
            FAILED,
            format!("standard output can't be written: {why}"),
        )),
        _ => Ok(()),
    }
}
