//! Calls for the port to repeat, each with the answer that the Rust gives.
//!
//! The port is a program of its own: it reads records from its standard input, repeats each call
//! and says how many answers differ. Nothing of it is linked here.

pub mod accounts;
pub mod board;
pub mod command;
pub mod draw;
pub mod objects;
pub mod program;
pub mod progress;
pub mod random;
pub mod state;
