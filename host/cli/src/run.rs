//! `carv replay` and `carv report`: makes the calls of a list on a board.

use crate::answer::Answer;
use crate::area::{self, AreaFile};
use crate::call::Call;
use crate::dump;
use crate::figures;
use crate::files::Files;
use crate::kept_names;
use crate::list::{self, BadLine, Line};
use crate::names::Names;
use crate::options::{Replay, Show};
use crate::output::Output;
use crate::page::{self, Refused};
use crate::picture::{Events, picture};
use crate::progress::{self, Done, Progress};
use crate::reader::{LONGEST, Read, Reader};
use crate::report;
use crate::spent::Spent;
use crate::status::{Failure, Status};
use crate::summary::Summary;
use crate::text;
use crate::trace::Trace;
use carv::{Board, ObjectId, Refusal};
use carv_files::OutputFile;
use carv_report::{Report, Watch};
use carv_text::json::Json;
use carv_text::{say, say_text};
use std::fs::File;
use std::io::{self, BufRead, BufReader, ErrorKind, IsTerminal};
use std::path::Path;

/// Replays a list, prints what is asked for, and answers the exit status.
pub fn replay(options: &Replay, out: &mut Output) -> Result<Status, Failure> {
    let (board, names) = match &options.board {
        Some(path) => (AreaFile::read(path)?.board()?, kept_names::read(path)),
        None => (Board::unopened(), Names::default()),
    };
    let mut files = Files::prepare(options)?;
    carv_interrupt::watch();
    let (source, total) = open(options)?;
    let is_answering = options.show != Show::Summary;
    let bar = io::stderr().is_terminal() && !(is_answering && io::stdout().is_terminal());
    let trace = files
        .trace
        .take()
        .map(|file| Trace::begin(file, &board, &names));
    let mut watch = Watch::new();
    for (id, name) in names.given() {
        watch.name(ObjectId(id), name);
    }
    let mut run = Run {
        options,
        trace: trace.transpose()?,
        board,
        names,
        files,
        events: options.draws().then(Events::default),
        summary: Summary::default(),
        refused: Refused::default(),
        watch,
        progress: Progress::new(bar, total),
        flushes: options.reads_standard_input() && io::stdin().is_terminal(),
        out,
    };
    run.lines(Reader::new(source))?;
    run.end()
}

/// The list, and its length if it is a file.
fn open(options: &Replay) -> Result<(Box<dyn BufRead>, Option<u64>), Failure> {
    let Some(path) = options.list_file() else {
        let stdin = io::stdin().lock();
        if stdin.is_terminal() {
            say("carv: reads calls from the terminal; Ctrl-D ends the list");
        }
        return Ok((Box::new(stdin), None));
    };
    let cannot = |why| Failure::file("the list", path, "read", why);
    let file = File::open(path).map_err(cannot)?;
    let about = file.metadata().map_err(cannot)?;
    let total = about.is_file().then_some(about.len());
    Ok((Box::new(BufReader::with_capacity(1 << 16, file)), total))
}

struct Run<'a> {
    options: &'a Replay,
    board: Board,
    names: Names,
    files: Files,
    /// For the picture, if there is to be one.
    events: Option<Events>,
    trace: Option<Trace>,
    summary: Summary,
    refused: Refused,
    /// What report and picture are worked from.
    watch: Watch,
    progress: Progress,
    /// Whether somebody waits for each answer.
    flushes: bool,
    out: &'a mut Output,
}

impl Run<'_> {
    fn lines(&mut self, mut reader: Reader<Box<dyn BufRead>>) -> Result<(), Failure> {
        while self.goes_on() {
            let line = match reader.line() {
                Ok(Read::End) => break,
                Ok(Read::Line(line)) => list::parse(line),
                Ok(Read::TooLong) => Err(too_long()),
                Err(why) if why.kind() == ErrorKind::Interrupted => continue,
                Err(why) => return Err(self.unreadable(why)),
            };
            self.summary.lines += 1;
            self.line(line)?;
            self.progress.show(Done {
                lines: self.summary.lines,
                bytes: reader.bytes(),
                calls: self.summary.calls(),
            });
        }
        self.progress.clear();
        Ok(())
    }

    /// Whether another line is read: no bad line and no Ctrl-C ended the list, and somebody wants
    /// answers or files.
    fn goes_on(&mut self) -> bool {
        if carv_interrupt::is_asked() {
            self.summary.interrupted_at = Some(self.summary.lines);
            progress::clear_interrupt();
            return false;
        }
        let is_wanted = self.files.are_wanted() || self.trace.is_some() || !self.out.is_closed();
        self.summary.stopped_at.is_none() && is_wanted
    }

    fn unreadable(&self, why: io::Error) -> Failure {
        let path = self.options.list_file();
        let path = path.unwrap_or(Path::new("on standard input"));
        Failure::file("the list", path, "read", why)
    }

    fn line(&mut self, line: Result<Line, BadLine>) -> Result<(), Failure> {
        match line {
            Ok(Line::Nothing) => return Ok(()),
            Ok(Line::Name(id, name)) => {
                self.names.set(id, &name);
                self.watch.name(ObjectId(id), &name);
                if let Some(trace) = &mut self.trace {
                    trace.name(id, &name);
                }
            }
            Ok(Line::Call(call)) => {
                let made = self.make(&call);
                let number = made.as_ref().map_or_else(|refusal| refusal.number(), |_| 0);
                if let Some(trace) = &mut self.trace {
                    trace.note(self.summary.lines, &call, number, &self.board)?;
                }
                self.answer(&call, made)?;
            }
            Err(why) => self.bad_line(&why)?,
        }
        if self.flushes {
            self.out.flush()?;
        }
        Ok(())
    }

    fn make(&mut self, call: &Call) -> Result<Answer, Refusal> {
        let (line, name) = (self.summary.lines, call.form().name);
        let (board, arguments) = (&mut self.board, call.arguments());
        let ends = self.events.as_ref().map(|_| Events::ends(call, board));
        let made = self
            .watch
            .call(line, name, arguments, board, |board| call.make(board));
        if let (Some(events), Some(ends)) = (&mut self.events, ends) {
            events.note(call, &made, ends);
        }
        made
    }

    fn answer(&mut self, call: &Call, made: Result<Answer, Refusal>) -> Result<(), Failure> {
        let is_shown = match &made {
            Ok(_) => self.options.show == Show::Answers,
            Err(_) => self.options.show != Show::Summary,
        };
        match &made {
            Ok(_) => self.summary.accepted += 1,
            Err(refusal) => {
                self.summary.refuse(*refusal);
                self.refused.note(self.summary.lines, call, *refusal);
            }
        }
        if !is_shown {
            return Ok(());
        }
        let line = self.summary.lines;
        if self.options.json {
            return self.out.line(json_answer(line, call, &made));
        }
        let answer = match &made {
            Ok(answer) => text::answer(answer, call.arguments(), &self.names),
            Err(refusal) => refusal.to_string(),
        };
        self.out.line(format_args!(
            "{line:>5}  {:<38}  {answer}",
            call.to_string()
        ))
    }

    fn bad_line(&mut self, why: &BadLine) -> Result<(), Failure> {
        let line = self.summary.lines;
        self.summary.bad_lines += 1;
        if !self.options.skips_bad_lines {
            self.summary.stopped_at = Some(line);
        }
        if self.options.json {
            let fields = [("line", line.into()), ("error", why.why.as_str().into())];
            let form = why.form.as_deref().map(|form| ("form", form.into()));
            let fields = fields.into_iter().chain(form);
            return self.out.line(Json::object(fields));
        }
        self.out.flush()?;
        self.progress.clear();
        say(format_args!("carv: line {line}: {why}"));
        Ok(())
    }

    /// Prints the board and the summary, and writes the files that are asked for.
    fn end(mut self) -> Result<Status, Failure> {
        self.watch.end(&self.board);
        if let Some(events) = self.events.take() {
            events.tell(&mut self.watch, &self.names);
        }
        if let Some(form) = self.options.report {
            report::print(form, &self.watch, &self.summary, self.out)?;
            self.write_files()?;
            return Ok(self.summary.status());
        }
        if self.options.dump {
            self.dump()?;
        }
        if self.options.json {
            let spent = Spent(self.watch.history()).json(&self.names);
            let services = self.options.services.then_some(&self.watch);
            let services = services.and_then(report::answers_json);
            for line in services.into_iter().chain(spent) {
                self.out.line(line)?;
            }
            self.out.line(self.summary.json())?;
        }
        self.out.flush()?;
        if !self.options.json && !self.out.is_closed() {
            let answers = report::answers(&self.watch);
            let spent = Spent(self.watch.history());
            let (heading, spent) = (spent.heading(), spent.text(&self.names));
            say_text(format_args!(
                "{}{heading}{answers}{spent}",
                self.summary.text()
            ));
        }
        self.write_files()?;
        Ok(self.summary.status())
    }

    /// Writes the files that are asked for. One that can't be written costs none of the others; the
    /// first such is told.
    fn write_files(&mut self) -> Result<(), Failure> {
        let trace = self.trace.take().map_or(Ok(()), Trace::end);
        let kept = self.keep();
        let svg = self.files.svg.take();
        let drawn = svg.map_or(Ok(()), |file| self.draw(file));
        let page = self.write_page();
        [trace, kept, drawn, page].into_iter().collect()
    }

    /// Keeps the board, and its names beside it.
    fn keep(&mut self) -> Result<(), Failure> {
        if let Some(file) = self.files.keep.take() {
            area::keep(&self.board, file)?;
        }
        match self.files.names.take() {
            Some(file) => kept_names::keep(&self.names, file),
            None => Ok(()),
        }
    }

    fn dump(&mut self) -> Result<(), Failure> {
        let bytes = self.board.as_bytes();
        if self.options.json {
            return self.out.line(dump::json(bytes, &self.names));
        }
        if self.options.show != Show::Summary {
            self.out.line("")?;
        }
        if self.board.is_sound() {
            self.out.text(dump::text(bytes, &self.names))
        } else {
            self.out
                .line("No board was opened, so there is none to print.")
        }
    }

    fn draw(&self, file: OutputFile) -> Result<(), Failure> {
        let picture = self.picture()?.ok_or_else(|| {
            let why = "the list has no accepted tick";
            Failure::file("the picture", file.path(), "drawn", why)
        })?;
        let drawn = file.finish_with(picture.as_bytes());
        drawn.map_err(Failure::output)
    }

    /// The picture; none without an accepted tick.
    fn picture(&self) -> Result<Option<String>, Failure> {
        let timeline = self.watch.timeline();
        let Some(ticks) = timeline.ticks() else {
            return Ok(None);
        };
        if let Some(from) = self.options.from
            && !ticks.contains(&from)
        {
            let (first, last) = (ticks.start(), ticks.end());
            return Err(Failure::usage(format!(
                "no picture is drawn: --from {from} is outside of the list's ticks, {first} to {last}"
            )));
        }
        let calls = self.summary.calls();
        let look = (self.options.title(), self.options.from);
        Ok(Some(picture(timeline, &ticks, calls, look)))
    }

    /// Writes the report as a page, if that is asked for.
    fn write_page(&mut self) -> Result<(), Failure> {
        let Some(file) = self.files.html.take() else {
            return Ok(());
        };
        let report = Report::new(&self.watch);
        let seen = (&report, self.watch.timeline());
        let svg = self.picture()?;
        let page = page::html(self.options, &self.summary, &self.refused, seen, svg);
        file.finish_with(page.as_bytes()).map_err(Failure::output)
    }
}

fn too_long() -> BadLine {
    let most = figures::grouped(LONGEST as u64);
    BadLine::new(format!("the line has more than {most} bytes"))
}

fn json_answer(line: u64, call: &Call, made: &Result<Answer, Refusal>) -> Json {
    let mut fields = vec![
        ("line", line.into()),
        ("call", call.form().name.into()),
        ("arguments", Json::list(call.arguments().iter().copied())),
    ];
    match made {
        Ok(answer) => fields.extend([("number", 0_u64.into()), ("answer", answer.json())]),
        Err(refusal) => fields.extend([
            ("number", refusal.number().into()),
            ("meaning", refusal.meaning().into()),
            ("advice", refusal.advice().into()),
        ]),
    }
    Json::object(fields)
}
