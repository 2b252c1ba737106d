//! How long somebody waited from ready to run.

use crate::doing::Doing;

/// Ms in a row in which somebody had a Ready thread and didn't run.
#[derive(Clone, Copy, Debug, PartialEq, Eq)]
pub struct Wait {
    /// When it began, in ms.
    pub from_ms: u64,
    /// How long it was.
    pub ms: u64,
    /// In how many of them it was held back, so that its own share stood in its way.
    pub held_back_ms: u64,
    /// Did it run in the end? If not, it went to sleep, was switched off, or nothing more was seen.
    pub ran: bool,
}

/// The longest wait of somebody of whom one ms after the other is shown.
#[derive(Clone, Copy, Debug, Default)]
pub struct Waiting {
    longest: Option<Wait>,
    now: Option<Wait>,
    last: Option<u64>,
}

impl Waiting {
    /// Notes what it does in the ms that this tick ends. A wait ends where ticks are missing.
    pub fn note(&mut self, tick: u64, doing: Doing) {
        if self
            .last
            .is_some_and(|last| last.checked_add(1) != Some(tick))
        {
            self.end(false);
        }
        self.last = Some(tick);
        match doing {
            Doing::Waits | Doing::HeldBack => {
                let wait = self.now.get_or_insert(Wait {
                    from_ms: tick.saturating_sub(1),
                    ms: 0,
                    held_back_ms: 0,
                    ran: false,
                });
                wait.ms += 1;
                wait.held_back_ms += u64::from(doing == Doing::HeldBack);
            }
            doing => self.end(doing == Doing::Runs),
        }
    }

    fn end(&mut self, ran: bool) {
        if let Some(mut wait) = self.now.take() {
            wait.ran = ran;
            if self.longest.is_none_or(|longest| longest.ms < wait.ms) {
                self.longest = Some(wait);
            }
        }
    }

    /// The first of the longest waits; none if it never waited.
    pub fn longest(mut self) -> Option<Wait> {
        self.end(false);
        self.longest
    }
}

#[cfg(test)]
mod tests {
    use super::*;
    use Doing::{HeldBack, Runs, Sleeps, Waits};

    fn longest(seen: &[(u64, Doing)]) -> Option<(u64, u64, u64, bool)> {
        let mut waiting = Waiting::default();
        for (tick, doing) in seen {
            waiting.note(*tick, *doing);
        }
        let wait = waiting.longest()?;
        Some((wait.from_ms, wait.ms, wait.held_back_ms, wait.ran))
    }

    #[test]
    fn from_ready_to_run() {
        assert_eq!(longest(&[]), None);
        assert_eq!(longest(&[(1, Sleeps), (2, Runs)]), None);
        let seen = [Waits, Runs, HeldBack, HeldBack, Waits, Runs, Waits, Sleeps];
        let seen: Vec<_> = (5..).zip(seen).collect();
        assert_eq!(longest(&seen), Some((6, 3, 2, true)));
        assert_eq!(longest(&seen[..4]), Some((6, 2, 2, false)));
    }

    /// The first of several, and none across a gap.
    #[test]
    fn apart() {
        let seen = [(1, Waits), (2, Waits), (3, Runs), (4, Waits), (5, Waits)];
        assert_eq!(longest(&seen), Some((0, 2, 0, true)));
        let seen = [
            (1, Waits),
            (2, Waits),
            (10, Waits),
            (11, Waits),
            (12, Waits),
        ];
        assert_eq!(longest(&seen), Some((9, 3, 0, false)));
        assert_eq!(
            longest(&[(u64::MAX, Waits), (u64::MAX, Waits)]),
            Some((u64::MAX - 1, 1, 0, false))
        );
    }
}
