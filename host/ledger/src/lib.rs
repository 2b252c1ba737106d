//! What a list of calls and their refusal numbers say of a board, which is never looked at.
//!
//! [`book`] is document 01's book: the figures of each live budget. [`ledger`] is what document 02's
//! request P3 is said with: every budget ever carved and every charge of CPU time, so what a budget
//! and all below it spent in each period. [`clock`] says where clock values fell. [`history`] writes
//! all three from one call after the other, and [`call`] reads a call from its name and numbers.
//!
//! All are written as the definitions of the proofs are, on true numbers: no sum wraps, and a
//! difference ends at 0.

pub mod book;
pub mod call;
pub mod clock;
pub mod history;
pub mod ledger;

pub use book::{Book, Figures};
pub use call::{BadCall, Call};
pub use clock::{Clock, Fall};
pub use history::History;
pub use ledger::{Carved, Ledger, Most, Overspent};

/// The period of every budget, in nanoseconds.
pub const PERIOD: u128 = 10_000_000;
/// Nanoseconds in a tick.
pub const TICK: u128 = 1_000_000;
/// The id of the root budget.
pub const ROOT: u64 = 1;
/// The id of the idle thread.
pub const IDLE: u64 = u64::MAX;

/// The number of an accepted call.
pub const ACCEPTED: u64 = 0;
/// The number of a charge or carve-out that can't be covered. It may leave a renewal; all other
/// refusals leave nothing.
pub const NOT_COVERED: u64 = 12;

/// The period that a time lies in: "periods of 10 ms counted from time 0".
pub const fn period_of(time: u128) -> u128 {
    time / PERIOD
}
