//! The port's board beside the Rust's.
//!
//! [`port`] calls the port's library through its C functions, or with the feature `mock` a model in
//! its place. [`pair`] makes each call on both and compares the answer and every byte of the state. What the
//! port refuses beyond the Rust (the numbers marked + in document 01) is decided in
//! [`carv_compare::board::reference`]. [`charges`] runs document 02's laws of charges on the
//! port, [`spent`] its promise that no period is overspent.

#![forbid(unsafe_code)]

pub mod bench;
pub mod charges;
pub mod damage;
pub mod damaged;
pub mod edit;
#[cfg(not(feature = "mock"))]
mod library;
#[cfg(feature = "mock")]
pub mod mock;
pub mod pair;
pub mod port;
pub mod runs;
pub mod short;
pub mod shorten;
pub mod snapshot;
pub mod soak;
pub mod spent;
pub mod tally;

pub use carv_layout::{area, sound};
