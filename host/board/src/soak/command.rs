//! The command `board soak`.

use super::life::Life;
use super::options::{DAMAGED, MOST_DAMAGED};
use super::{Options, called_as, soak};
use std::io::{self, Write};
use std::ops::ControlFlow;

/// How a run without a difference ended.
#[derive(Clone, Copy, Debug, PartialEq, Eq)]
pub enum Ended {
    /// At its limit.
    AtLimit,
    /// By Ctrl-C.
    Interrupted,
}

/// What `board soak --help` prints.
pub fn help() -> String {
    let command = called_as();
    format!(
        "\
Makes random calls on the port's board and on the Rust's, and tries damaged areas in between, for
a time or a number of calls. After each call it compares the number, the answer words, the register
image and every byte of the state. It ends at the first difference.

usage: {command} [--seconds N | --minutes N | --calls N] [--seed S] [--damaged SHARE] [--json]

--seconds N      ends after N seconds; 60 if no limit is given
--minutes N      ends after N minutes
--calls N        ends after exactly N calls on sound boards
--seed S         fixes the calls, a number below 2^64; without it the clock gives one
--damaged SHARE  about how much of the time goes to damaged areas, in percent, 0 to {MOST_DAMAGED};
                 {DAMAGED} if not given
--json           also writes the report as one JSON object, the last line of standard output

Seed and SHARE fix every call and every damage, on any machine; the limit says only where the run
ends. So a run that was limited by time is repeated exactly by its number of calls: the report has
the command for it. A run to leave alone for the night, and one to repeat:

    {command} --minutes 600 2>soak.log
    {command} --calls 1000000 --seed 7

The seed is printed first. Standard error tells how far the run is: a line that is written anew on
a terminal, else a line every 30 seconds. Ctrl-C ends it with the report of the calls so far; a
second one ends it at once. The report has the calls by name with the numbers by which they were
refused, what these mean, how far the boards went, how many removals found a payer whose renewal was
due, whose totals were read, and which rule of soundness the damaged areas broke first. On a
difference it also has what differs and the shortest list of calls found that shows it.

Exit status: 0 if nothing differs, 1 if something does, 2 if called wrongly, 130 if ended by Ctrl-C.
"
    )
}

/// Runs the command with the arguments behind its name, and writes the report.
///
/// # Errors
/// As [`Done`](carv_compare::command::Done): how it was called wrongly, or else what went wrong.
pub fn run(arguments: &[&str], to: &mut impl Write) -> Result<Result<Ended, String>, String> {
    let options = Options::read(arguments)?;
    Ok(run_with(&options, to))
}

fn run_with(options: &Options, to: &mut impl Write) -> Result<Ended, String> {
    let Options {
        seed,
        limit,
        damaged,
        ..
    } = options;
    carv_interrupt::watch();
    let begun = writeln!(to, "seed {seed}, {limit}, {damaged} % damaged areas\n");
    written(begun.and_then(|()| to.flush()))?;
    let mut life = Life::new();
    let report = soak(options, |report| {
        life.tell(report);
        match carv_interrupt::is_asked() {
            true => ControlFlow::Break(()),
            false => ControlFlow::Continue(()),
        }
    });
    life.end();
    written(writeln!(to, "{report}"))?;
    if options.json {
        written(writeln!(to, "{}", report.json()))?;
    }
    match report.difference {
        None if report.is_interrupted => Ok(Ended::Interrupted),
        None => Ok(Ended::AtLimit),
        Some(_) => Err(format!(
            "a difference was found; `{}` shows it again",
            report.repeating()
        )),
    }
}

fn written(done: io::Result<()>) -> Result<(), String> {
    done.map_err(|why| format!("can't write the report: {why}"))
}
