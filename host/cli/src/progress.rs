//! The progress bar of a long list, on standard error.

use crate::figures::grouped;
use carv_text::say_text;
use std::io::{self, IsTerminal};
use std::time::{Duration, Instant};

/// How long a list runs without a bar, and how long a bar stays as it is.
const PAUSE: Duration = Duration::from_millis(200);
/// How many lines go by before the clock is asked again.
const LINES: u64 = 256;
/// Signs in the bar.
const SIGNS: u64 = 24;

/// How far a list is.
#[derive(Clone, Copy, Debug, Default)]
pub struct Done {
    /// Lines that were read.
    pub lines: u64,
    /// Their bytes.
    pub bytes: u64,
    /// Calls that were made.
    pub calls: u64,
}

/// A bar, or none if it isn't wanted.
pub struct Progress {
    is_wanted: bool,
    total: Option<u64>,
    began: Instant,
    drawn: Instant,
    is_visible: bool,
}

impl Progress {
    /// A bar for a list of so many bytes, if that is known.
    pub fn new(is_wanted: bool, total: Option<u64>) -> Self {
        let now = Instant::now();
        Self {
            is_wanted,
            total,
            began: now,
            drawn: now,
            is_visible: false,
        }
    }

    /// Draws the bar anew, if it is time.
    pub fn show(&mut self, done: Done) {
        if !self.is_wanted || !done.lines.is_multiple_of(LINES) || self.drawn.elapsed() < PAUSE {
            return;
        }
        self.drawn = Instant::now();
        self.is_visible = true;
        let bar = bar(done, self.total, self.began.elapsed());
        say_text(format_args!("\r{bar}\x1b[K"));
    }

    /// Takes the bar away, before something else is written.
    pub fn clear(&mut self) {
        if self.is_visible {
            self.is_visible = false;
            say_text("\r\x1b[K");
        }
    }
}

/// Takes away what a terminal shows of Ctrl-C, before something else is written.
pub fn clear_interrupt() {
    if io::stderr().is_terminal() {
        say_text("\r\x1b[K");
    }
}

impl Drop for Progress {
    fn drop(&mut self) {
        self.clear();
    }
}

/// The bar: percent of the bytes if their number is known, lines, calls a second.
fn bar(done: Done, total: Option<u64>, time: Duration) -> String {
    let part = |of: u64| match total {
        Some(total) if total > 0 => {
            let part = u128::from(done.bytes.min(total)) * u128::from(of) / u128::from(total);
            Some(part as usize)
        }
        _ => None,
    };
    let mut text = String::new();
    if let (Some(signs), Some(percent)) = (part(SIGNS), part(100)) {
        let (full, empty) = ("#".repeat(signs), "-".repeat(SIGNS as usize - signs));
        text = format!("[{full}{empty}] {percent:>3} %  ");
    }
    let calls_a_second = done.calls as f64 / time.as_secs_f64().max(0.001);
    let (lines, rate) = (grouped(done.lines), grouped(calls_a_second as u64));
    format!("{text}{lines} lines, {rate} calls a second")
}

#[cfg(test)]
mod tests {
    use super::*;

    #[test]
    fn bars() {
        let done = Done {
            lines: 5_120,
            bytes: 50_000,
            calls: 5_000,
        };
        let time = Duration::from_secs(2);
        assert_eq!(
            bar(done, Some(100_000), time),
            "[############------------]  50 %  5,120 lines, 2,500 calls a second"
        );
        assert_eq!(bar(done, None, time), "5,120 lines, 2,500 calls a second");
        let text = bar(done, Some(40_000), time);
        assert!(
            text.starts_with("[########################] 100 %"),
            "{text}"
        );
        assert_eq!(bar(done, Some(0), time), bar(done, None, time));
    }
}
