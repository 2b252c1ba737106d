//! `--html`: the report on a list as a page.

use crate::call::Call;
use crate::figures::{count, grouped};
use crate::options::Replay;
use crate::summary::Summary;
use carv_page::{Answer, Fact, Mark, Question, Refusal, command, tool};
use carv_report::{About, Report};
use carv_watch::Timeline;
use std::collections::BTreeMap;
use std::ffi::OsStr;

/// The refusals of a list: how often each number came, and where first.
#[derive(Clone, Debug, Default)]
pub struct Refused(BTreeMap<u64, Times>);

#[derive(Clone, Debug)]
struct Times {
    times: u64,
    first_line: u64,
    first_call: String,
}

impl Refused {
    /// Notes the refused call of a line.
    pub fn note(&mut self, line: u64, call: &Call, refusal: carv::Refusal) {
        let times = self.0.entry(refusal.number()).or_insert_with(|| Times {
            times: 0,
            first_line: line,
            first_call: call.to_string(),
        });
        times.times += 1;
    }

    fn rows(&self) -> Vec<Refusal> {
        let rows = self.0.iter().map(|(number, seen)| {
            let refusal = carv::Refusal::from_number(*number);
            Refusal {
                number: *number,
                meaning: refusal.meaning().to_string(),
                advice: refusal.advice().to_string(),
                times: seen.times,
                first: format!("line {}: {}", grouped(seen.first_line), seen.first_call),
            }
        });
        rows.collect()
    }
}

/// The page on a list: its report, what was seen of it, and the picture if there is one.
pub fn html(
    options: &Replay,
    summary: &Summary,
    refused: &Refused,
    (report, timeline): (&Report, &Timeline),
    svg: Option<String>,
) -> String {
    let about = About {
        title: options
            .given_title()
            .unwrap_or_else(|| format!("Report on {}", list_name(options))),
        asked: asked(options, summary),
        questions: left_out(summary).into_iter().collect(),
        svg,
        refusals: refused.rows(),
        tool: tool("carv", env!("CARGO_PKG_VERSION")),
    };
    report.page(timeline, about).html()
}

/// The list's file without its folders.
fn list_name(options: &Replay) -> String {
    let name = options.list_file().and_then(|path| path.file_name());
    let name = name.map(OsStr::to_string_lossy);
    name.map_or_else(|| "a list from standard input".to_string(), Into::into)
}

fn asked(options: &Replay, summary: &Summary) -> Vec<Fact> {
    let list = match options.list_file() {
        Some(path) => path.display().to_string(),
        None => "standard input".to_string(),
    };
    let (accepted, refused) = (grouped(summary.accepted), grouped(summary.refused()));
    let calls = grouped(summary.calls());
    let mut facts = vec![
        Fact::code("list", list),
        Fact::code("command", command("carv")),
        Fact::new("lines", grouped(summary.lines)),
        Fact::new(
            "calls",
            format!("{calls}: {accepted} accepted, {refused} refused"),
        ),
    ];
    let board = options.board.as_deref();
    let board = board.map(|path| path.display().to_string());
    facts.extend(board.map(|path| Fact::code("begun with the board", path)));
    facts
}

/// Lines that are no calls, and those that were not reached, may change every figure.
fn left_out(summary: &Summary) -> Option<Question> {
    let lines = count(summary.bad_lines, "line is no call", "lines are no calls");
    let text = match (summary.bad_lines, summary.stopped_at) {
        (0, _) => None,
        (_, Some(line)) => Some(format!(
            "Line {} is no call, and the tool stopped there: this report is of the lines before it.",
            grouped(line)
        )),
        (_, None) => Some(format!(
            "{lines}, and the tool went on behind: they are not in this report."
        )),
    };
    let interrupted = summary.interrupted_at.map(|line| {
        let line = grouped(line);
        format!(
            "The tool was interrupted behind line {line}: this report is of the lines up to it."
        )
    });
    let answers = text.into_iter().chain(interrupted).map(|text| Answer {
        mark: Mark::Bad,
        text,
    });
    let answers: Vec<Answer> = answers.collect();
    (!answers.is_empty()).then(|| Question {
        text: "Is all of the list in this report?".to_string(),
        answers,
        note: String::new(),
    })
}

#[cfg(test)]
mod tests {
    use super::*;

    #[test]
    fn lines_that_are_no_calls() {
        let mut summary = Summary::default();
        assert!(left_out(&summary).is_none());
        summary.bad_lines = 2;
        let said = |summary: &Summary| {
            left_out(summary).expect("a question").answers[0]
                .text
                .clone()
        };
        assert!(said(&summary).starts_with("2 lines are no calls, and the tool went on"));
        summary.stopped_at = Some(1_234);
        assert!(said(&summary).starts_with("Line 1,234 is no call, and the tool stopped there"));
        summary = Summary::default();
        summary.interrupted_at = Some(7);
        assert!(said(&summary).starts_with("The tool was interrupted behind line 7: "));
    }
}
