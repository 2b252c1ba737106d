//! Days in small of the coin sorter on the port's board.
//!
//! A [`dayfile`] has the plan of a day as text: services with their shares, limits and work, and what
//! happens; [`plan`] has it as values. [`day`] runs it on a [`carv::Board`] and lists the calls,
//! [`record`] is what was seen of it: a [`carv_watch::Timeline`] with what each service did in each
//! millisecond, and the [`carv_ledger::Ledger`] of what each budget spent; [`report`] sums that up in
//! words, [`picture`] draws it, [`page`] and [`trace`] write it for browsers. [`read`], [`options`] and
//! [`help`] are of the program.

mod calls;
pub mod day;
pub mod dayfile;
pub mod help;
pub mod options;
pub mod page;
pub mod picture;
pub mod plan;
pub mod read;
pub mod record;
pub mod refused;
pub mod report;
mod setup;
pub mod trace;
mod words;
