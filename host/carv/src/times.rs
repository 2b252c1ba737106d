//! Times of the board's clock: in ns, and by the number of a tick. Neither passes for the other.

use core::fmt;

use crate::{LAST_TICK, Refusal, TICK_NS};

/// A time on the board's clock, in ns from its start. Amounts of time are plain numbers, with the
/// unit in their names.
#[derive(Clone, Copy, Debug, Default, PartialEq, Eq, PartialOrd, Ord, Hash)]
pub struct Nanoseconds(
    /// How many ns they are.
    pub u64,
);

impl fmt::Display for Nanoseconds {
    fn fmt(&self, f: &mut fmt::Formatter<'_>) -> fmt::Result {
        write!(f, "{} ns", self.0)
    }
}

impl From<Nanoseconds> for u64 {
    fn from(time: Nanoseconds) -> Self {
        time.0
    }
}

impl TryFrom<Tick> for Nanoseconds {
    type Error = Refusal;

    /// The time of a tick, as [`Tick::time`].
    fn try_from(tick: Tick) -> Result<Self, Refusal> {
        tick.time()
    }
}

/// A tick of the board's clock, by its number.
///
/// ```
/// use carv::{Nanoseconds, Refusal, Tick};
///
/// assert_eq!(Tick(3).time(), Ok(Nanoseconds(3_000_000)));
/// assert_eq!(Tick(Tick::LAST.0 + 1).time(), Err(Refusal::Tick));
/// ```
///
/// A tick doesn't pass for a time, nor a time for a tick:
///
/// ```compile_fail,E0308
/// # use carv::{Board, Limits, ObjectId, Refusal, Tick};
/// # let mut board = Board::unopened();
/// board.refill(ObjectId::ROOT, Tick(10))?;
/// # Ok::<(), Refusal>(())
/// ```
///
/// ```compile_fail,E0308
/// # use carv::{Board, Limits, Nanoseconds, Refusal};
/// # let mut board = Board::unopened();
/// board.tick(Nanoseconds(10_000_000))?;
/// # Ok::<(), Refusal>(())
/// ```
#[derive(Clone, Copy, Debug, Default, PartialEq, Eq, PartialOrd, Ord, Hash)]
pub struct Tick(
    /// Its number.
    pub u64,
);

impl Tick {
    /// The last tick that has a time.
    pub const LAST: Self = Self(LAST_TICK);

    /// When it is: tick n is the time n × [`TICK_NS`].
    ///
    /// Refused with [`Refusal::Tick`] above [`Tick::LAST`], as the board refuses such a tick.
    pub const fn time(self) -> Result<Nanoseconds, Refusal> {
        match self.0.checked_mul(TICK_NS) {
            Some(ns) => Ok(Nanoseconds(ns)),
            None => Err(Refusal::Tick),
        }
    }
}

impl fmt::Display for Tick {
    fn fmt(&self, f: &mut fmt::Formatter<'_>) -> fmt::Result {
        write!(f, "tick {}", self.0)
    }
}

impl From<Tick> for u64 {
    fn from(tick: Tick) -> Self {
        tick.0
    }
}
