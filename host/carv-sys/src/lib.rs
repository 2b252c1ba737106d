//! The C functions of the port's library `libcarv.a`, as `include/carv.h` declares them, its constants,
//! and the link. The crate `carv` is the safe one above it.
//!
//! With the feature `link`, which is on by default, the build script links `libcarv.a` from the
//! folder that the environment variable `CARV_LIB_DIR` names, by default `target/staticlib` of the
//! repository. Without it the declarations are the same, and whoever calls a function links the
//! library by other means.
//!
//! `tests/board/header.rs` of the crate `carv` compares all of it with the header.

#![no_std]

mod constants;
mod functions;

pub use constants::*;
pub use functions::*;

/// The FNV-1a sum of the library that is linked, in hexadecimal digits; none without the feature
/// `link`.
pub const LIBRARY_FNV1A: Option<&str> = match env!("CARV_LIBRARY_FNV1A") {
    sum if sum.is_empty() => None,
    sum => Some(sum),
};
