//! The trace of a list, for Perfetto and chrome://tracing.

use crate::call::Call;
use crate::names::Names;
use crate::status::Failure;
use carv::Board;
use carv_files::OutputFile;
use carv_trace::{Made, TraceFile};

/// A trace that is being written to a file.
pub struct Trace(TraceFile);

impl Trace {
    /// Begins a trace in this file, with the board that the list begins with and its names.
    pub fn begin(file: OutputFile, board: &Board, names: &Names) -> Result<Self, Failure> {
        let mut trace = TraceFile::begin(file, board).map_err(Failure::output)?;
        for (id, name) in names.given() {
            trace.name(id, name);
        }
        Ok(Self(trace))
    }

    /// Names a budget.
    pub fn name(&mut self, id: u64, name: &str) {
        self.0.name(id, name);
    }

    /// Notes a call of the list with its number, and the board after it.
    pub fn note(
        &mut self,
        line: u64,
        call: &Call,
        number: u64,
        board: &Board,
    ) -> Result<(), Failure> {
        let told = carv_ledger::Call::parse(call.form().name, call.arguments());
        let made = Made {
            line,
            call: told.expect("a call of the table"),
            number,
            text: call,
        };
        self.0.note(&made, board).map_err(Failure::output)
    }

    /// Ends it, and puts it in its place.
    pub fn end(self) -> Result<(), Failure> {
        self.0.finish().map_err(Failure::output)
    }
}
