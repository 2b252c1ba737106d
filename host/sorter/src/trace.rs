//! The day as a trace for Perfetto and chrome://tracing, made from its list of calls and the events in it.

use crate::record::Day;
use carv::Board;
use carv_cli::list::{Line, parse};
use carv_files::{CannotWrite, OutputFile};
use carv_trace::{Made, TraceFile};

/// Makes the day's calls once more, and writes what they did into this file.
///
/// # Errors
/// It can't be written.
pub fn write(day: &Day, file: OutputFile) -> Result<(), CannotWrite> {
    let mut board = Box::new(Board::unopened());
    let mut trace = TraceFile::begin(file, &board)?;
    for (line, text) in (1..).zip(&day.calls) {
        match parse(text.as_bytes()) {
            Ok(Line::Name(id, name)) => trace.name(id, &name),
            Ok(Line::Call(call)) => {
                let made = call.make(&mut board);
                let number = made.err().map_or(0, |refusal| refusal.number());
                let told = carv_ledger::Call::parse(call.form().name, call.arguments());
                let made = Made {
                    line,
                    call: told.expect("a call of the table"),
                    number,
                    text: &call,
                };
                trace.note(&made, &board)?;
            }
            _ => {
                if let Some(event) = event(text) {
                    trace.tell(line, event)?;
                }
            }
        }
    }
    trace.finish()
}

/// What happened, if a line of the list is a comment on an event.
fn event(line: &str) -> Option<&str> {
    let (_, text) = line.strip_prefix("# event ")?.split_once(": ")?;
    Some(text)
}
