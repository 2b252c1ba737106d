//! Help that teaches.

use crate::call::{self, Form};
use crate::figures::wrapped;
use crate::status::Failure;
use carv::Refusal;
use carv_text::nearest::suggestion;

/// What help is about.
#[derive(Clone, Copy, Debug, PartialEq, Eq)]
pub enum Topic {
    /// The tool.
    Tool,
    /// `carv replay`.
    Replay,
    /// `carv report`.
    Report,
    /// The grammar of lists.
    List,
    /// An example of a list, and nothing else.
    Example,
    /// JSON answers.
    Json,
    /// `carv dump`.
    Dump,
    /// `carv check`.
    Check,
    /// `carv calls`.
    Calls,
}

/// The topics with their names and texts.
const TOPICS: [(&str, Topic, &str); 10] = [
    ("help", Topic::Tool, TOOL),
    ("carv", Topic::Tool, TOOL),
    ("replay", Topic::Replay, include_str!("help/replay.txt")),
    ("report", Topic::Report, include_str!("help/report.txt")),
    ("list", Topic::List, include_str!("help/list.txt")),
    ("example", Topic::Example, EXAMPLE),
    ("json", Topic::Json, include_str!("help/json.txt")),
    ("dump", Topic::Dump, include_str!("help/dump.txt")),
    ("check", Topic::Check, include_str!("help/check.txt")),
    ("calls", Topic::Calls, include_str!("help/calls.txt")),
];

const TOOL: &str = include_str!("help/tool.txt");
const EXAMPLE: &str = include_str!("../examples/first.calls");

impl Topic {
    /// The topic of this name.
    pub fn of(name: &str) -> Result<Self, Failure> {
        let found = TOPICS.iter().find(|(known, ..)| *known == name);
        found.map(|(_, topic, _)| *topic).ok_or_else(|| {
            let near = suggestion(name, TOPICS.iter().map(|(known, ..)| *known));
            Failure::usage(format!("there is no help on `{name}`{near}"))
        })
    }

    /// Its text.
    pub fn text(self) -> &'static str {
        let found = TOPICS.iter().find(|(_, topic, _)| *topic == self);
        found.map_or(TOOL, |(.., text)| *text)
    }
}

/// What `carv calls` prints: the table of calls, then the numbers by which they refuse.
pub fn calls() -> String {
    let mut text = String::from(CALLS);
    for form in call::table() {
        text += &format!("\n{form}\n{}", wrapped(form.does, 4));
        if let Some(arguments) = arguments(form) {
            text += &wrapped(&format!("arguments: {arguments}"), 4);
        }
        text += &wrapped(&format!("answers: {}", form.answers), 4);
        text += &wrapped(&format!("refused with: {}", refusals(form)), 4);
    }
    text += "\nThe refusals. The first question that a call misses decides, by rising number.\n";
    for refusal in Refusal::LISTED {
        let (number, meaning) = (refusal.number(), refusal.meaning());
        text += &format!("\n{}", wrapped(&format!("{number}: {meaning}"), 0));
        text += &wrapped(refusal.advice(), 4);
    }
    text
}

const CALLS: &str = "\
The calls. `carv help list` says how arguments are written; what stands in brackets may be left out
at the end of a line. Numbers are refusals; their meanings stand below.
";

/// What the arguments of a call are, but for those that are just numbers.
fn arguments(form: &Form) -> Option<String> {
    let told = form.arguments.iter().filter_map(|argument| {
        let meaning = argument.meaning.text()?;
        Some(format!("{} {meaning}", argument.name.to_uppercase()))
    });
    let told: Vec<String> = told.collect();
    (!told.is_empty()).then(|| told.join(", "))
}

fn refusals(form: &Form) -> String {
    let first = form.asks_soundness.then_some(1);
    let numbers = first.into_iter().chain(form.refusals.iter().copied());
    let numbers: Vec<String> = numbers.map(|number| number.to_string()).collect();
    match numbers.is_empty() {
        true => "never".to_string(),
        false => numbers.join(", "),
    }
}
