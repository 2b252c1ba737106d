//! A trace that is written call by call.

use crate::clock::{Clock, Step};
use crate::event::{Events, Ms, number};
use crate::gauges::Gauges;
use crate::look;
use crate::names::Names;
use crate::tracks::Tracks;
use carv::{Board, Refusal, ThreadId};
use carv_ledger::{ACCEPTED, Call, NOT_COVERED};
use carv_text::json::Json;
use std::fmt::Display;
use std::io::{self, Write};

/// A call that was made.
#[derive(Clone, Copy)]
pub struct Made<'a> {
    /// Where it stands in its list.
    pub line: u64,
    /// The call.
    pub call: Call,
    /// The number by which it was refused, 0 if it wasn't.
    pub number: u64,
    /// The call as the list has it.
    pub text: &'a dyn Display,
}

impl Made<'_> {
    /// Whether the board may be another one after it. Only then does its time count.
    fn may_change(&self) -> bool {
        matches!(self.number, ACCEPTED | NOT_COVERED) && self.call != Call::Reading
    }

    /// What its instants say, beside what is their own.
    fn args(&self, own: Option<(&str, Json)>) -> Json {
        let line = ("line", number(self.line));
        let call = ("call", self.text.to_string().into());
        Json::object(own.into_iter().chain([line, call]))
    }
}

/// Writes a trace, call by call. It ends with [`finish`](Self::finish); a tracer that is dropped ends
/// it too, and keeps quiet if that fails.
pub struct Tracer<W: Write> {
    out: Events<W>,
    clock: Clock,
    names: Names,
    gauges: Gauges,
    tracks: Tracks,
    tally: Tally,
    is_finished: bool,
}

/// What is counted for the end of the trace.
#[derive(Default)]
struct Tally {
    calls: u64,
    refused: u64,
    falls: u64,
    leaps: u64,
}

impl<W: Write> Tracer<W> {
    /// Begins a trace with this board, opened or not. Of a board that was opened before, time begins
    /// with the latest period of a budget.
    ///
    /// # Errors
    /// If it can't be written, as for all of these methods.
    pub fn new(out: W, board: &Board) -> io::Result<Self> {
        let mut tracer = Self {
            out: Events::begin(out)?,
            clock: Clock::default(),
            names: Names::default(),
            gauges: Gauges::default(),
            tracks: Tracks::default(),
            tally: Tally::default(),
            is_finished: false,
        };
        tracer.gauges.read(board.as_bytes());
        if tracer.gauges.is_live(carv::ObjectId::ROOT.0) {
            tracer.clock = Clock::kept(tracer.gauges.latest_period_ns());
        }
        tracer.read(board);
        Ok(tracer)
    }

    /// Names a budget, best before the clock goes on from its carve-out: its counters have the name
    /// from then on. Its threads have its last name throughout.
    pub fn name(&mut self, budget: u64, name: &str) {
        let before = self.names.budget(budget);
        self.names.set(budget, name);
        if self.names.budget(budget) != before {
            self.gauges.rename(budget);
        }
    }

    /// A call that was made, and the board after it.
    ///
    /// # Errors
    /// If the trace can't be written.
    pub fn note(&mut self, made: &Made<'_>, board: &Board) -> io::Result<()> {
        self.tally.calls += 1;
        if !made.may_change() {
            return self.refusal(made);
        }
        if let Some(time) = made.call.clock() {
            self.go(u64::try_from(time).unwrap_or(u64::MAX), made)?;
        }
        if made.number == ACCEPTED {
            self.event(made, board)?;
        }
        self.read(board);
        self.refusal(made)
    }

    /// Something that happened, which no call tells of, with its line in the list: at the clock's time.
    ///
    /// # Errors
    /// If the trace can't be written.
    pub fn tell(&mut self, line: u64, text: &str) -> io::Result<()> {
        let args = Json::object([("line", number(line))]);
        self.instant(text.to_string(), args)
    }

    /// Reads the board as it is now.
    fn read(&mut self, board: &Board) {
        let area = board.as_bytes();
        self.gauges.read(area);
        self.tracks.read(area, &self.gauges, self.clock.board_ns());
    }

    /// The clock comes to a call's time; what changed before is written if time goes on.
    fn go(&mut self, time_ns: u64, made: &Made<'_>) -> io::Result<()> {
        let mut clock = self.clock;
        let step = clock.go(time_ns);
        if clock.drawn_ns() > self.clock.drawn_ns() {
            self.write()?;
        }
        self.clock = clock;
        let (count, from, how) = match step {
            Step::On => return Ok(()),
            Step::Fell(from) => (&mut self.tally.falls, from, "fell"),
            Step::Leapt(from) => (&mut self.tally.leaps, from, "leapt"),
        };
        *count += 1;
        let name = format!("the clock {how} from {} to {} ms", Ms(from), Ms(time_ns));
        self.instant(name, made.args(None))
    }

    /// Writes what changed up to the clock's time.
    fn write(&mut self) -> io::Result<()> {
        let at = self.clock.drawn_ns();
        self.tracks.write(at, &mut self.out)?;
        self.gauges.write(at, &self.names, &mut self.out)
    }

    /// What an accepted call did to budgets and threads, before it is read from the board.
    fn event(&mut self, made: &Made<'_>, board: &Board) -> io::Result<()> {
        let name = match made.call {
            Call::Open { .. } => {
                self.clock.open();
                "board opened".to_string()
            }
            Call::CreateBudget { .. } => {
                format!("budget {} carved out", look::newest(board.as_bytes()))
            }
            Call::Remove { id, .. } if self.gauges.is_live(id) => {
                format!("{} removed", self.names.budget(id))
            }
            Call::CreateUserThread { id, .. } => format!("{} created", ThreadId(id)),
            Call::Kill { id } => format!("{} killed", ThreadId(id)),
            _ => return Ok(()),
        };
        self.instant(name, made.args(None))
    }

    fn refusal(&mut self, made: &Made<'_>) -> io::Result<()> {
        if made.number == ACCEPTED {
            return Ok(());
        }
        self.tally.refused += 1;
        let meaning = Refusal::from_number(made.number).meaning();
        let args = made.args(Some(("meaning", meaning.into())));
        self.instant(format!("refused with {}", made.number), args)
    }

    fn instant(&mut self, name: String, args: Json) -> io::Result<()> {
        self.out.instant(self.clock.drawn_ns(), name, args)
    }

    /// Ends the trace.
    ///
    /// # Errors
    /// If it can't be written.
    pub fn finish(mut self) -> io::Result<()> {
        self.end()
    }

    fn end(&mut self) -> io::Result<()> {
        self.is_finished = true;
        self.write()?;
        let at = self.clock.drawn_ns();
        self.tracks.end(at, &self.names, &mut self.out)?;
        self.out.end(&self.tally.about())
    }
}

impl<W: Write> Drop for Tracer<W> {
    fn drop(&mut self) {
        if !self.is_finished {
            // There is nobody to tell.
            drop(self.end());
        }
    }
}

impl Tally {
    /// What the trace says of all of it.
    fn about(&self) -> Json {
        Json::object([
            ("time", TIME.into()),
            ("calls", number(self.calls)),
            ("refused", number(self.refused)),
            ("clock_falls", number(self.falls)),
            ("clock_leaps", number(self.leaps)),
        ])
    }
}

const TIME: &str = "the board's clock: tick n is drawn at n ms, as long as the clock neither falls nor \
                    leaps by more than 10 s; a board that is opened again is drawn behind the first";
