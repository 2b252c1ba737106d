//! The Rust's files as they are, each with what lets the oracle read or build its private parts.
//! Much of them never runs here.

#[allow(dead_code)]
pub mod arch;
#[allow(dead_code)]
pub mod carv_abi {
    //! Kinds and messages.
    include!(concat!(env!("OUT_DIR"), "/carv_abi.rs"));
}
#[allow(dead_code)]
pub mod carv_budget;
#[allow(dead_code)]
pub mod ipc {
    //! Endpoints, notifications and interrupt lines.
    use crate::carv_abi;

    include!(concat!(env!("OUT_DIR"), "/ipc.rs"));
}
#[allow(dead_code)]
pub mod objects;
#[allow(dead_code)]
pub mod scheduler;
