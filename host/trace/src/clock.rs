//! The board's clock, and the time at which a call is drawn.

/// The longest step of the clock that is drawn as long as it is; a longer one is a leap, and drawn as
/// this.
pub const LEAP_NS: u64 = 10_000_000_000;
/// The latest time that is drawn: up to here a double tells each ns of a time in microseconds.
pub const LATEST_NS: u64 = 1 << 53;

/// Up to here the first time of a trace is drawn as it is.
const LATEST_FIRST_NS: u64 = LATEST_NS / 2;

/// How the clock came to a call's time.
#[derive(Clone, Copy, Debug, PartialEq, Eq)]
pub enum Step {
    /// It stayed, or went on.
    On,
    /// It fell, from this time.
    Fell(u64),
    /// It went on by more than [`LEAP_NS`], from this time.
    Leapt(u64),
}

/// The board's clock and the drawn time, which never falls.
#[derive(Clone, Copy, Debug, Default)]
pub struct Clock {
    board_ns: u64,
    drawn_ns: u64,
    is_set: bool,
}

impl Clock {
    /// The clock of a board that was kept at about this time.
    pub fn kept(board_ns: u64) -> Self {
        Self {
            board_ns,
            drawn_ns: first(board_ns).unwrap_or(0),
            is_set: true,
        }
    }

    /// The last time of a call, in ns.
    pub fn board_ns(&self) -> u64 {
        self.board_ns
    }

    /// Where that is drawn, in ns.
    pub fn drawn_ns(&self) -> u64 {
        self.drawn_ns
    }

    /// A board is opened: its time begins with 0, drawn behind all that was.
    pub fn open(&mut self) {
        self.board_ns = 0;
    }

    /// A call at this time.
    pub fn go(&mut self, time_ns: u64) -> Step {
        let from = std::mem::replace(&mut self.board_ns, time_ns);
        let is_first = !std::mem::replace(&mut self.is_set, true);
        if let Some(drawn) = first(time_ns).filter(|_| is_first) {
            self.drawn_ns = drawn;
            return Step::On;
        }
        let step = time_ns.saturating_sub(from);
        self.drawn_ns = (self.drawn_ns + step.min(LEAP_NS)).min(LATEST_NS);
        match step {
            0 if time_ns < from => Step::Fell(from),
            0..=LEAP_NS => Step::On,
            _ => Step::Leapt(from),
        }
    }
}

/// Where the first time of a trace is drawn, if that is where it is.
fn first(time_ns: u64) -> Option<u64> {
    (time_ns <= LATEST_FIRST_NS).then_some(time_ns)
}

#[cfg(test)]
mod tests {
    use super::*;

    const MS: u64 = 1_000_000;

    #[test]
    fn time_goes_on_falls_and_leaps() {
        let mut clock = Clock::default();
        let hour = 3_600_000 * MS;
        assert_eq!(clock.go(hour), Step::On, "the first time is as it is");
        assert_eq!(clock.drawn_ns(), hour);
        assert_eq!(clock.go(hour + MS), Step::On);
        assert_eq!(clock.go(5 * MS), Step::Fell(hour + MS));
        assert_eq!((clock.board_ns(), clock.drawn_ns()), (5 * MS, hour + MS));
        assert_eq!(clock.go(7 * MS), Step::On);
        assert_eq!(clock.drawn_ns(), hour + 3 * MS);
        assert_eq!(clock.go(7 * MS + LEAP_NS), Step::On);
        assert_eq!(clock.go(u64::MAX), Step::Leapt(7 * MS + LEAP_NS));
        assert_eq!(clock.drawn_ns(), hour + 3 * MS + 2 * LEAP_NS);
    }

    #[test]
    fn a_board_begins_with_0() {
        let mut clock = Clock::default();
        clock.open();
        assert_eq!(clock.go(9 * MS), Step::On);
        clock.open();
        assert_eq!((clock.board_ns(), clock.drawn_ns()), (0, 9 * MS));
        assert_eq!(clock.go(2 * MS), Step::On);
        assert_eq!(clock.drawn_ns(), 11 * MS);
        let kept = Clock::kept(40 * MS);
        assert_eq!((kept.board_ns(), kept.drawn_ns()), (40 * MS, 40 * MS));
    }

    #[test]
    fn the_drawn_time_has_an_end() {
        let mut clock = Clock::default();
        assert_eq!(clock.go(u64::MAX), Step::Leapt(0));
        assert_eq!(clock.drawn_ns(), LEAP_NS);
        let mut late = Clock::kept(LATEST_FIRST_NS);
        for _ in 0..LATEST_NS / LEAP_NS {
            late.go(u64::MAX);
            late.go(0);
        }
        assert_eq!(late.drawn_ns(), LATEST_NS);
        assert_eq!(Clock::kept(u64::MAX).drawn_ns(), 0);
    }
}
