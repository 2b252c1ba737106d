//! What a line of a day file says.

use super::form::{
    AT, BOARD, EXPECT, FORMS, Form, MOST_FRAMES, MOST_MS, MOST_PERIODS, NAME_WIDTH, PERIODS,
    SERVICE, SHOW, TEXT_WIDTH, THREAD, TITLE, WATCH, WORK,
};
use super::quantity::{
    Quantity, count, ms_of_jobs, quantity, share_of_a_board, shown, time, within,
};
use crate::plan::{Expected, FIRST, Jobs, Phase, Service, Work, last_of};
use carv::Limits;
use carv_text::line::BadLine;
use carv_text::nearest::{nearest, suggestion};

/// What a line says.
#[derive(Debug)]
pub enum Line {
    Board(Limits),
    Periods(u64),
    Show(u64),
    Title(String),
    FirstThreadRuns,
    Service(Service),
    Work(Phase),
    At(u64, Happens),
    Watch(String),
    Expect(String, Expected),
}

/// What happens at a time, services by their names.
#[derive(Debug)]
pub enum Happens {
    On(String),
    Off(String),
    Ask(String, Limits),
    Note(String),
}

/// Names that the report gives to others.
const TAKEN: [&str; 4] = ["root", "idle", "all", "thread 0"];

/// What reads the rest of a line of each form.
type Reader = fn(&str) -> Result<Line, String>;
const READERS: [(&Form, Reader); FORMS.len()] = [
    (&SERVICE, service),
    (&WORK, work),
    (&AT, at),
    (&BOARD, board),
    (&PERIODS, periods),
    (&SHOW, show),
    (&TITLE, title),
    (&THREAD, first_thread),
    (&WATCH, watch),
    (&EXPECT, expect),
];

/// What this line says, and its form; none if it is empty or a comment.
pub fn parse(line: &str) -> Result<Option<(&'static Form, Line)>, BadLine> {
    let said = said(line);
    if said.is_empty() {
        return Ok(None);
    }
    if said.chars().any(char::is_control) {
        return Err(BadLine::new("the line has a control character"));
    }
    let (word, rest) = first_word(&said);
    let reader = READERS.iter().find(|(form, _)| form.word == word);
    let (form, read) = reader.ok_or_else(|| unknown(word))?;
    let line = read(rest.trim()).map_err(|why| form.bad(why))?;
    Ok(Some((form, line)))
}

/// The first word, and what stands behind it. A `:` right behind the word belongs to `work`; behind
/// another it means nothing.
fn first_word(said: &str) -> (&str, &str) {
    let end = said.find([' ', ':']).unwrap_or(said.len());
    let (word, rest) = said.split_at(end);
    match word == WORK.word {
        true => (word, rest),
        false => (word, rest.strip_prefix(':').unwrap_or(rest)),
    }
}

/// A line without its comment, with one space between words.
fn said(line: &str) -> String {
    let said = line.split('#').next().unwrap_or_default();
    said.split_whitespace().collect::<Vec<_>>().join(" ")
}

/// The name in a line that is meant as a service, to know it in other lines.
pub fn name_in(line: &str) -> Option<String> {
    let said = said(line);
    let (name, _) = said.strip_prefix("service ")?.split_once(':')?;
    Some(name.trim().to_string())
}

/// Is this line meant as a service?
pub fn is_service(line: &str) -> bool {
    said(line).split([' ', ':']).next() == Some(SERVICE.word)
}

fn unknown(word: &str) -> BadLine {
    let words = FORMS.map(|form| form.word);
    let near = nearest(word, words);
    let form = FORMS.iter().find(|form| Some(form.word) == near);
    let near = match form {
        Some(form) => format!("; did you mean `{}`?", form.form),
        None => format!(": the first word is one of {}", words.join(", ")),
    };
    BadLine::new(format!("no line begins with `{}`{near}", shown(word)))
}

fn board(rest: &str) -> Result<Line, String> {
    let asked = Asked::parse(rest)?;
    asked.refuse_frames_and_off("a board")?;
    let limits = asked.limits("a board")?;
    share_of_a_board(limits.cpu_ns)?;
    Ok(Line::Board(limits))
}

fn periods(rest: &str) -> Result<Line, String> {
    count(rest, "periods", 1..=MOST_PERIODS).map(Line::Periods)
}

fn title(rest: &str) -> Result<Line, String> {
    text(rest, "title").map(Line::Title)
}

fn watch(rest: &str) -> Result<Line, String> {
    name(rest).map(Line::Watch)
}

fn show(rest: &str) -> Result<Line, String> {
    let from = rest.strip_prefix("from ").ok_or("`from` is missing")?;
    time(from, FIRST..=last_of(MOST_PERIODS)).map(Line::Show)
}

fn first_thread(rest: &str) -> Result<Line, String> {
    match rest {
        "0 never sleeps" | "0: never sleeps" => Ok(Line::FirstThreadRuns),
        _ => Err(format!(
            "`thread {}` says nothing that is known",
            shown(rest)
        )),
    }
}

fn service(rest: &str) -> Result<Line, String> {
    let (named, asked) = rest.split_once(':').ok_or(NO_COLON)?;
    let name = name(named)?;
    if TAKEN.contains(&name.as_str()) {
        return Err(format!(
            "a service can't be called {name}, the report has another of that name"
        ));
    }
    let asked = Asked::parse(asked)?;
    let frames = asked.frames.unwrap_or(0);
    Ok(Line::Service(Service {
        limits: asked.limits("a service")?,
        frames: within(frames, "frames", 0..=MOST_FRAMES)?,
        begins_on: !asked.off,
        work: Vec::new(),
        name,
    }))
}

const NO_COLON: &str = "a `:` is missing";

fn work(rest: &str) -> Result<Line, String> {
    let (from, work) = rest.split_once(':').ok_or(NO_COLON)?;
    let from = match from.trim() {
        "" => 0,
        from => {
            let ms = from.strip_prefix("from ");
            let ms = ms.ok_or_else(|| format!("`{}` is no `from TIME ms`", shown(from)))?;
            time(ms, 0..=MOST_MS)?
        }
    };
    let work = match work.trim() {
        "always" => Work::Always,
        "none" => Work::None,
        jobs => self::jobs(jobs)?,
    };
    Ok(Line::Work(Phase { from, work }))
}

fn jobs(text: &str) -> Result<Work, String> {
    let no_work = || {
        let word = text.split(' ').next().unwrap_or_default();
        let near = suggestion(word, ["every", "always", "none"]);
        let text = shown(text);
        format!("`{text}` is no work: that is `every TIME ms, ...`, `always` or `none`{near}")
    };
    let jobs = text.strip_prefix("every ").ok_or_else(no_work)?;
    let (every, ms) = jobs.split_once(',').ok_or(
        "behind `every TIME ms` a comma and the ms of a job are missing, as in `, 0 to 2 ms`",
    )?;
    let every = time(every.trim(), 1..=MOST_MS)?;
    let (least, most) = ms_of_jobs(ms.trim(), 0..=MOST_MS)?;
    Ok(Work::Jobs(Jobs { every, least, most }))
}

fn at(rest: &str) -> Result<Line, String> {
    let (when, what) = rest.split_once(':').ok_or(NO_COLON)?;
    let when = time(when.trim(), FIRST..=last_of(MOST_PERIODS))?;
    let what = what.trim();
    let (verb, rest) = what.split_once(' ').unwrap_or((what, ""));
    let happens = match verb {
        "on" => Happens::On(name(rest)?),
        "off" => Happens::Off(name(rest)?),
        "note" => Happens::Note(text(rest, "note")?),
        "ask" => ask(rest)?,
        other => {
            let near = suggestion(other, ["on", "off", "ask", "note"]);
            let other = shown(other);
            return Err(format!(
                "`{other}` is nothing that happens: on, off, ask and note are{near}"
            ));
        }
    };
    Ok(Line::At(when, happens))
}

fn ask(rest: &str) -> Result<Happens, String> {
    let (named, asked) = rest
        .split_once(':')
        .ok_or("a `:` is missing behind the name")?;
    let asked = Asked::parse(asked)?;
    asked.refuse_frames_and_off("who asks")?;
    Ok(Happens::Ask(name(named)?, asked.limits("who asks")?))
}

fn expect(rest: &str) -> Result<Line, String> {
    let (named, what) = rest.split_once(':').ok_or(NO_COLON)?;
    match what.trim() {
        "never missed" => expected(named, Expected::NeverMissed),
        "never held back" => expected(named, Expected::NeverHeldBack),
        other => Err(format!(
            "`{}` can't be expected: `never missed` and `never held back` can",
            shown(other)
        )),
    }
}

fn expected(named: &str, expected: Expected) -> Result<Line, String> {
    Ok(Line::Expect(name(named)?, expected))
}

/// A name: not empty, not too long, without what ends names.
fn name(text: &str) -> Result<String, String> {
    let name = text.trim();
    match name.chars().count() {
        0 => Err("the name is missing".to_string()),
        1..=NAME_WIDTH if !name.contains([':', ',']) => Ok(name.to_string()),
        1..=NAME_WIDTH => Err(format!("the name `{}` has a `:` or a comma", shown(name))),
        _ => Err(format!(
            "the name `{}` has more than {NAME_WIDTH} characters",
            shown(name)
        )),
    }
}

fn text(text: &str, what: &str) -> Result<String, String> {
    match text.chars().count() {
        0 => Err(format!("the text of the {what} is missing")),
        1..=TEXT_WIDTH => Ok(text.to_string()),
        _ => Err(format!(
            "the text of the {what} has more than {TEXT_WIDTH} characters"
        )),
    }
}

/// What is asked for, between commas, in any order.
#[derive(Default)]
struct Asked {
    share: Option<u64>,
    memory: Option<u64>,
    frames: Option<u64>,
    off: bool,
}

impl Asked {
    fn parse(text: &str) -> Result<Self, String> {
        let mut asked = Self::default();
        for item in text.split(',') {
            let item = item.trim();
            let again = match quantity(item)? {
                Quantity::Share(ns) => asked.share.replace(ns).is_some(),
                Quantity::Memory(bytes) => asked.memory.replace(bytes).is_some(),
                Quantity::Frames(frames) => asked.frames.replace(frames).is_some(),
                Quantity::Off => std::mem::replace(&mut asked.off, true),
            };
            if again {
                return Err(format!("with `{}` the same is said twice", shown(item)));
            }
        }
        Ok(asked)
    }

    fn limits(&self, who: &str) -> Result<Limits, String> {
        let share = self.share;
        let memory = self.memory;
        Ok(Limits {
            cpu_ns: share.ok_or_else(|| format!("{who} needs a share, such as `4 ms`"))?,
            memory_bytes: memory.ok_or_else(|| format!("{who} needs memory, such as `96 KiB`"))?,
        })
    }

    fn refuse_frames_and_off(&self, who: &str) -> Result<(), String> {
        match (self.frames, self.off) {
            (None, false) => Ok(()),
            _ => Err(format!("{who} has a share and memory, and nothing else")),
        }
    }
}
