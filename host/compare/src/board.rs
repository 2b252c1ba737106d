//! Calls on a whole board: registry, threads, ready queue and exit log.
//!
//! [`call`] has the calls, [`rust`] makes them on the Rust, [`reference`](mod@reference) does so with
//! the port's added refusals in front. [`numbers`] has what each call can answer, [`removal`] what a
//! removal meets, [`totals`] whose totals are read, [`walk`] random calls, [`record`] the calls as
//! records.

pub mod call;
mod edges;
pub mod make;
pub mod numbers;
pub mod record;
pub mod reference;
pub mod removal;
pub mod rust;
pub mod totals;
pub mod walk;

use carv_layout::area;
pub use carv_layout::{BUDGET, IDLE, state};

/// Most objects that there can be.
pub const OBJECTS: usize = area::OBJECTS.places;
/// Most threads that there can be, idle counted.
pub const THREADS: usize = area::THREADS.places;
/// Most exits in the log.
pub const EXITS: usize = area::EXITS.places;
/// Nanoseconds in a tick.
pub const TICK: u64 = 1_000_000;
/// The last tick that is accepted.
pub const LAST_TICK: u64 = 18_446_744_073_709;
/// The wait of a sleeper.
pub const SLEEP: u64 = 5;
