//! Traces of lists, held against the format and against the board.

mod day;
mod json;
mod lists;
mod random;
mod time;
mod trace;

use carv::{Board, ThreadId};
use carv_cli::list::{self, Line};
use carv_trace::{Made, Tracer};
use std::collections::BTreeMap;
use trace::Trace;

/// Makes the calls of a list and traces them.
struct Run<'a> {
    tracer: Tracer<&'a mut Vec<u8>>,
    board: Board,
    line: u64,
    refused: u64,
    /// How many ticks each thread was current at.
    ticks: BTreeMap<ThreadId, u64>,
}

impl<'a> Run<'a> {
    fn new(file: &'a mut Vec<u8>, board: Board) -> Self {
        Self {
            tracer: Tracer::new(file, &board).expect("memory takes it"),
            board,
            line: 0,
            refused: 0,
            ticks: BTreeMap::new(),
        }
    }

    fn line(&mut self, text: &str) {
        self.line += 1;
        let line = list::parse(text.as_bytes());
        match line.unwrap_or_else(|why| panic!("{text}: {why}")) {
            Line::Nothing => {}
            Line::Name(id, name) => self.tracer.name(id, &name),
            Line::Call(call) => self.call(&call),
        }
    }

    /// Ends the trace; the board, how many calls were refused, and the ticks.
    fn finish(self) -> (Board, u64, BTreeMap<ThreadId, u64>) {
        self.tracer.finish().expect("memory takes it");
        (self.board, self.refused, self.ticks)
    }

    fn call(&mut self, call: &carv_cli::call::Call) {
        let current = self.board.current();
        let made = call.make(&mut self.board);
        if let (Ok(_), Ok(current), "tick") = (&made, current, call.form().name) {
            *self.ticks.entry(current).or_default() += 1;
        }
        let number = made.err().map_or(0, |refusal| refusal.number());
        self.refused += u64::from(number > 0);
        let told = carv_ledger::Call::parse(call.form().name, call.arguments());
        let made = Made {
            line: self.line,
            call: told.expect("a call"),
            number,
            text: call,
        };
        self.tracer
            .note(&made, &self.board)
            .expect("memory takes it");
    }
}

/// What a list left.
struct Traced {
    trace: Trace,
    board: Board,
    refused: u64,
    ticks: BTreeMap<ThreadId, u64>,
    bytes: usize,
}

/// The trace of a list that begins with this board.
fn traced_from(board: Board, list: &[impl AsRef<str>]) -> Traced {
    let mut file = Vec::new();
    let mut run = Run::new(&mut file, board);
    for text in list {
        run.line(text.as_ref());
    }
    let (board, refused, ticks) = run.finish();
    let text = str::from_utf8(&file).expect("UTF-8");
    Traced {
        trace: Trace::read(text),
        board,
        refused,
        ticks,
        bytes: text.len(),
    }
}

/// The trace of a list.
fn traced(list: &[impl AsRef<str>]) -> Traced {
    traced_from(Board::unopened(), list)
}
