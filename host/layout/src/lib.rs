//! A board's area without the port's library: [`area`] says which word stands where and sums up
//! budgets with all below them, [`sound`] says which of document 01's rules of soundness it breaks,
//! and where.
//!
//! Both are written from `docs/LAYOUT.md` and documents 01 and 02 alone, so that the port can be
//! compared with them.

pub mod area;
pub mod sound;

/// The kind of a budget.
pub const BUDGET: u64 = 6;
/// The id of the idle thread.
pub const IDLE: u64 = u64::MAX;
/// The period of every budget, in nanoseconds.
pub const PERIOD: u64 = 10_000_000;

/// States of threads.
pub mod state {
    /// Created, not started.
    pub const INACTIVE: u64 = 1;
    /// In the ready queue; idle in none.
    pub const READY: u64 = 2;
    /// On the processor.
    pub const RUNNING: u64 = 3;
    /// Waits for something.
    pub const BLOCKED: u64 = 4;
    /// Killed while current.
    pub const DEAD: u64 = 5;
}
