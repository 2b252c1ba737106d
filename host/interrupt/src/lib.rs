//! Ctrl-C, noted: a program that [watches](watch) for it asks [`is_asked`] from time to time, and ends
//! with what it has so far. A second Ctrl-C ends it at once.

use std::ffi::c_int;
use std::sync::atomic::{AtomicBool, Ordering};

/// The exit status of a program that was interrupted: 128 and the signal's number, as in shells.
pub const STATUS: u8 = 130;

/// The signal of Ctrl-C, and what can be done about it besides calling a function, on Linux.
const SIGINT: c_int = 2;
const SIG_DFL: usize = 0;
const SIG_IGN: usize = 1;

// Of the C library.
unsafe extern "C" {
    fn signal(number: c_int, handler: usize) -> usize;
    fn siginterrupt(number: c_int, flag: c_int) -> c_int;
}

static IS_ASKED: AtomicBool = AtomicBool::new(false);

/// From now on the first Ctrl-C is noted, and ends a read that waits with `Interrupted`. A program
/// that was started to ignore it, as shells do in the background, goes on to ignore it.
pub fn watch() {
    let handler = note as extern "C" fn(c_int) as usize;
    // SAFETY: `note` does only what a handler may do; both take any number.
    unsafe {
        if signal(SIGINT, handler) == SIG_IGN {
            signal(SIGINT, SIG_IGN);
        }
        siginterrupt(SIGINT, 1);
    }
}

/// Whether Ctrl-C came.
pub fn is_asked() -> bool {
    IS_ASKED.load(Ordering::Relaxed)
}

/// Notes the first; the next one has its usual effect.
extern "C" fn note(number: c_int) {
    IS_ASKED.store(true, Ordering::Relaxed);
    // SAFETY: a handler may call `signal`.
    unsafe {
        signal(number, SIG_DFL);
    }
}
