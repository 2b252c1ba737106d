//! The Rust that was ported, compiled unchanged and run behind plain numbers.
//!
//! [`account`] runs the calls on one account alone, [`Board`] those on a whole registry and
//! scheduler. Both answer with document 01's numbers, for the Rust's own refusals only: what the
//! port refuses beyond the Rust (the numbers marked + there) is for the caller to avoid. What
//! document 02 asks for is made around the Rust's files: the renewal of [`Board::remove`], and all of
//! [`Board::totals`].
//!
//! `source` holds the Rust's files, which the build script takes from the folder that `CARV_SRC`
//! names, each with what reads its private fields. `stubs` stands in for what they lean on.

extern crate alloc;

pub mod account;
mod board;
mod source;
mod state;
mod stubs;

pub use board::{Board, Switch, Value};
pub use state::{Entry, Exit, Snapshot, Thread, Wait};

// The Rust's files name each other, and what they lean on, from the root of their crate.
use source::{arch, carv_abi, carv_budget, ipc, objects, scheduler};
use stubs::{carv_caps, carv_frames, mm, sync, x86_64};
