//! Tells on standard error how far a soak is: a line that is written anew on a terminal, else a
//! line from time to time, so that a log shows life.

use super::{Limit, Report, called_as};
use carv_text::figures::{grouped, short};
use carv_text::{say, say_text};
use std::io::{self, IsTerminal};
use std::time::Duration;

/// Between lines on a terminal and in a log.
const ON_TERMINAL: Duration = Duration::from_millis(250);
const IN_LOG: Duration = Duration::from_secs(30);
/// Characters of the bar.
const BAR: u64 = 8;

/// Tells of a run.
pub struct Life {
    terminal: bool,
    /// When the next line is due.
    next: Duration,
}

impl Life {
    /// Tells in the way that suits standard error.
    pub fn new() -> Self {
        let terminal = io::stderr().is_terminal();
        let next = if terminal { ON_TERMINAL } else { IN_LOG };
        Self { terminal, next }
    }

    /// Says how far the run is, if it is time to.
    pub fn tell(&mut self, report: &Report) {
        if report.time < self.next {
            return;
        }
        if self.terminal {
            say_text(format_args!("\r{:79}", line(report)));
            self.next = report.time + ON_TERMINAL;
        } else {
            say(log_line(report));
            self.next = report.time + IN_LOG;
        }
    }

    /// Clears the line.
    pub fn end(&self) {
        if self.terminal {
            say_text(format_args!("\r{:79}\r", ""));
        }
    }
}

/// How much of the run is done, in percent.
fn percent(report: &Report) -> u64 {
    let (done, all) = match report.options.limit {
        Limit::Time(time) => (report.time.as_millis(), time.as_millis()),
        Limit::Calls(count) => (report.tally.total().into(), count.into()),
    };
    (done * 100 / all.max(1)).min(100) as u64
}

/// At most 79 characters.
fn line(report: &Report) -> String {
    let percent = percent(report);
    let done = (percent * BAR / 100) as usize;
    let bar = "#".repeat(done) + &"-".repeat(BAR as usize - done);
    let seconds = report.time.as_secs();
    format!(
        "{bar} {percent}% {}:{:02}, {} calls, {}/s, {} refused, {} areas, {} differ",
        seconds / 60,
        seconds % 60,
        short(report.tally.total()),
        short(report.calls_a_second()),
        short(report.refused()),
        short(report.damaged.areas()),
        report.differences(),
    )
}

fn log_line(report: &Report) -> String {
    format!(
        "{}: {} s, {} %, {} calls ({} a second), {} refused, {} damaged areas, {} differences",
        called_as(),
        report.time.as_secs(),
        percent(report),
        grouped(report.tally.total()),
        grouped(report.calls_a_second()),
        grouped(report.refused()),
        grouped(report.damaged.areas()),
        report.differences(),
    )
}

#[cfg(test)]
mod tests {
    use super::*;
    use crate::soak::Options;

    #[test]
    fn lines() {
        let options = Options::read(&["--minutes", "2", "--seed", "1"]).unwrap();
        let mut report = Report::new(&options);
        report.time = Duration::from_secs(75);
        let found = line(&report);
        assert_eq!(
            found,
            "####---- 62% 1:15, 0 calls, 0/s, 0 refused, 0 areas, 0 differ"
        );
        let log = log_line(&report);
        assert!(log.starts_with("board soak: 75 s, 62 %, 0 calls"), "{log}");
        report.time = Duration::from_secs(500);
        assert_eq!(percent(&report), 100);
    }
}
