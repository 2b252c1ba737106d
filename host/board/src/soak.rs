//! A soak: random calls and damaged areas by turns, for a time or a count.
//!
//! A round is a stretch of random calls, then some areas that are damaged, with a few calls before
//! each. Seed and share fix all of it; time or count say only where it ends, always right behind a
//! call. So the count of a run repeats it, whatever the machine's speed.

mod called;
pub mod command;
mod life;
mod options;
mod report;

pub use called::called_as;
pub use options::{Limit, Options};
pub use report::Report;

use crate::damaged;
use crate::runs::RandomBoards;
use crate::shorten::Finding;
use carv_compare::board::call::Step;
use std::fmt;
use std::ops::ControlFlow;
use std::time::Instant;

/// About as many random calls take as long as a damaged area.
const CALLS_TO_AN_AREA: u64 = 30;

/// What differed.
#[derive(Clone, Debug)]
pub enum Found {
    /// After the last call of this list.
    Calls(Finding),
    /// On a damaged area, in a few lines.
    Area(String),
}

impl fmt::Display for Found {
    fn fmt(&self, f: &mut fmt::Formatter<'_>) -> fmt::Result {
        match self {
            Self::Calls(finding) => finding.fmt(f),
            Self::Area(why) => write!(f, "a damaged area, {why}"),
        }
    }
}

/// Why a run ends.
enum End {
    /// Time or count are reached.
    Limit,
    /// Whoever watches has seen enough.
    Interrupted,
    Found(Found),
}

/// Makes the run. `watch` sees the report after each call, and can break it off.
pub fn soak(options: &Options, watch: impl FnMut(&Report) -> ControlFlow<()>) -> Report {
    let mut soak = Soak {
        boards: RandomBoards::new(options.seed),
        report: Report::new(options),
        started: Instant::now(),
        watch,
    };
    let end = loop {
        if let Err(end) = soak.round() {
            break end;
        }
    };
    let mut report = soak.report;
    report.time = soak.started.elapsed();
    report.is_interrupted = matches!(end, End::Interrupted);
    report.difference = match end {
        End::Limit | End::Interrupted => None,
        End::Found(Found::Calls(finding)) => Some(Found::Calls(finding.shortened())),
        End::Found(found) => Some(found),
    };
    report
}

struct Soak<W> {
    boards: RandomBoards,
    report: Report,
    started: Instant,
    watch: W,
}

impl<W: FnMut(&Report) -> ControlFlow<()>> Soak<W> {
    fn round(&mut self) -> Result<(), End> {
        let areas = self.report.options.damaged;
        for _ in 0..(100 - areas) * CALLS_TO_AN_AREA {
            self.step()?;
        }
        for _ in 0..areas {
            for _ in 0..self.boards.few() {
                self.step()?;
            }
            let done = damaged::one_area(&mut self.boards, &mut self.report.damaged);
            done.map_err(|why| End::Found(Found::Area(why)))?;
        }
        Ok(())
    }

    fn step(&mut self) -> Result<(), End> {
        let done = self.boards.step();
        let (step, number) = done.map_err(|finding| End::Found(Found::Calls(finding)))?;
        if let Step::Call(call) = step {
            let report = &mut self.report;
            report.tally.count(call, number, &self.boards.pair);
            report.time = self.started.elapsed();
            let goes_on = (self.watch)(report).is_continue();
            if report.is_over() {
                return Err(End::Limit);
            }
            if !goes_on {
                return Err(End::Interrupted);
            }
        }
        Ok(())
    }
}
