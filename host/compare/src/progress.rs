//! A line on standard error that tells how far a run is, if that is a terminal.

use carv_text::say_text;
use std::io::{self, IsTerminal};
use std::time::{Duration, Instant};

const BETWEEN: Duration = Duration::from_secs(2);

/// Tells every few seconds how much of `total` is done.
pub struct Progress {
    total: u64,
    last: Option<Instant>,
}

impl Progress {
    /// Starts at nothing done; stays silent if standard error is no terminal.
    pub fn new(total: u64) -> Self {
        let last = io::stderr().is_terminal().then(Instant::now);
        Self { total, last }
    }

    /// Says how much is done, if it is time to.
    pub fn tell(&mut self, done: u64) {
        let due = self.last.is_some_and(|last| last.elapsed() >= BETWEEN);
        if due {
            let percent = u128::from(done) * 100 / u128::from(self.total.max(1));
            say_text(format_args!("\r{done} of {} ({percent} %) ", self.total));
            self.last = Some(Instant::now());
        }
    }

    /// Clears the line.
    pub fn end(&self) {
        if self.last.is_some() {
            say_text(format_args!("\r{:60}\r", ""));
        }
    }
}
