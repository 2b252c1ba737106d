//! `carv report`: what became of each service, and the answers at the end of `carv replay`.

use crate::output::Output;
use crate::status::Failure;
use crate::summary::Summary;
use carv_report::{Report, Short, Watch};
use carv_text::json::Json;
use carv_text::say;

/// How a report is printed.
#[derive(Clone, Copy, Debug, PartialEq, Eq)]
pub enum Form {
    /// As text.
    Text,
    /// As one JSON object.
    Json,
    /// As CSV.
    Csv,
}

/// Prints the report on a list with these counts. What of the list isn't in it is told behind it, as
/// that may change every figure.
pub fn print(
    form: Form,
    watch: &Watch,
    summary: &Summary,
    out: &mut Output,
) -> Result<(), Failure> {
    let report = Report::new(watch);
    match form {
        Form::Text => out.text(report.text())?,
        Form::Json => out.line(report.json())?,
        Form::Csv => out.text(report.csv())?,
    }
    out.flush()?;
    for told in [bad_lines(summary), interrupted(summary)]
        .into_iter()
        .flatten()
    {
        say(format_args!("carv: {told}"));
    }
    Ok(())
}

fn bad_lines(summary: &Summary) -> Option<String> {
    match (summary.stopped_at, summary.bad_lines) {
        (Some(line), _) => Some(format!(
            "stopped at line {line}: the report is of those before it"
        )),
        (None, 0) => None,
        (None, 1) => Some("1 bad line is not in the report".to_string()),
        (None, bad) => Some(format!("{bad} bad lines are not in the report")),
    }
}

fn interrupted(summary: &Summary) -> Option<String> {
    let line = summary.interrupted_at?;
    Some(format!(
        "interrupted behind line {line}: the report is of those up to it"
    ))
}

/// The answers at the end of a replay, in lines of text; nothing if no service was seen at a tick.
pub fn answers(watch: &Watch) -> String {
    Short::new(watch).text()
}

/// The same as a JSON object; none if no service was seen at a tick.
pub fn answers_json(watch: &Watch) -> Option<Json> {
    let short = Short::new(watch);
    let services = (!short.services.is_empty()).then(|| short.json());
    services.map(|services| Json::object([("services", services)]))
}
