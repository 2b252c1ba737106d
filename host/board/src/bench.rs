//! Times the port's calls beside the Rust's.
//!
//! [`calls`] times each call on a full board, [`threads`] ticks and plannings in the cases that
//! matter, [`question`] question 1 alone, [`totals`](mod@totals) the root's totals beside it,
//! [`registry`] the registry's calls on boards of several sizes. [`about`] says what is measured and
//! how, [`glance`] sums up.

pub mod about;
mod boards;
mod calls;
mod case;
pub mod clock;
mod filled;
pub mod glance;
mod line;
mod question;
mod registry;
mod threads;
pub mod totals;

pub use calls::calls;
pub use line::{HEAD, Less, Line};
pub use question::question;
pub use registry::registry;
pub use threads::threads;

use std::fmt;

/// How the ids of a board lie.
#[derive(Clone, Copy, Debug, PartialEq, Eq)]
pub enum Ids {
    /// One after the other.
    Dense,
    /// With two of three missing.
    Gaps,
    /// Far apart, so that an id says nothing of its place, and all with the remainder by which
    /// question 1 guesses: each guess is wrong.
    Far,
}

impl fmt::Display for Ids {
    fn fmt(&self, f: &mut fmt::Formatter<'_>) -> fmt::Result {
        f.pad(match self {
            Self::Dense => "dense",
            Self::Gaps => "gaps",
            Self::Far => "far apart",
        })
    }
}
