//! The board of Joekwind for Rust: budgets, objects and threads of a coin sorter's board, kept by
//! the proved port behind `include/carv.h`.
//!
//! A [`Board`] is the bytes that the port works on, in memory of the caller's own, and has a method
//! for each of the port's calls. Each answers a [`Refusal`] if the call misses one of document 01's
//! questions; a refused call leaves the board as it was, but for the renewals that its method
//! names.
//!
//! # A board in a `static`
//!
//! ```
//! use carv::{Board, Limits, PERIOD_NS, ThreadId};
//! use std::sync::Mutex; // In a kernel, a lock of its own.
//!
//! static BOARD: Mutex<Board> = Mutex::new(Board::unopened());
//!
//! // The root budget has all of every 10 ms, and a million bytes.
//! let mut board = BOARD.lock()?;
//! board.reopen(Limits { cpu_ns: PERIOD_NS, memory_bytes: 1_000_000 })?;
//! assert_eq!(board.current()?, ThreadId::FIRST);
//! # Ok::<(), Box<dyn std::error::Error>>(())
//! ```
//!
//! In memory that comes from elsewhere, [`Board::open_in`] opens a board, and [`Board::restore_in`]
//! finds the one that is there.
//!
//! # The timer interrupt
//!
//! ```
//! use carv::{Board, Limits, PERIOD_NS, Refusal, Switch, ThreadId, Tick, Wait};
//! use std::sync::{Mutex, PoisonError}; // In a kernel, a lock that keeps interrupts off.
//!
//! static BOARD: Mutex<Board> = Mutex::new(Board::unopened());
//!
//! /// Tick `n` has come: it is booked to the thread that ran, and the next one is planned.
//! fn on_timer(n: Tick) -> Result<(), Refusal> {
//!     let planned = {
//!         let mut board = BOARD.lock().unwrap_or_else(PoisonError::into_inner);
//!         board.tick(n)?;
//!         board.plan(n)?
//!     };
//!     // The lock is free again, as the thread that runs now may need it.
//!     if let Some(switch) = planned.switch {
//!         switch_to(switch);
//!     }
//!     Ok(())
//! }
//!
//! /// The kernel's part: page tables and registers of `switch.new`.
//! fn switch_to(switch: Switch) {
//! #   assert!(BOARD.try_lock().is_ok());
//!     println!("{} -> {}, page tables at {:?}", switch.old, switch.new, switch.root);
//! }
//! # let board = || BOARD.lock().unwrap_or_else(PoisonError::into_inner);
//! # board().reopen(Limits { cpu_ns: PERIOD_NS, memory_bytes: 1_000 })?;
//! # board().block_current(Wait::Sleep(Tick(2)))?;
//! # on_timer(Tick(1))?;
//! # assert_eq!(board().current()?, ThreadId::IDLE);
//! # on_timer(Tick(2))?;
//! # assert_eq!(board().current()?, ThreadId::FIRST);
//! # Ok::<(), Refusal>(())
//! ```
//!
//! # A service, switched on and off
//!
//! ```
//! use carv::{
//!     Backing, Board, Cause, Context, Image, Kind, Limits, ObjectId, Refusal, Space, ThreadId,
//!     Tick,
//! };
//!
//! struct Service {
//!     budget: ObjectId,
//!     object: ObjectId,
//!     thread: ThreadId,
//!     /// What the thread's floating-point registers start from.
//!     image: Image,
//! }
//!
//! /// Carves out a budget, and starts a thread on it. If a later call is refused, what the earlier ones
//! /// made stays, for the kernel to remove.
//! fn switch_on(board: &mut Board, share: Limits, now: Tick) -> Result<Service, Refusal> {
//!     let budget = board.create_budget(ObjectId::ROOT, share, now.time()?)?;
//!     let object = board.insert(Kind::Thread, budget, Kind::Thread.bytes())?;
//!     let thread = ThreadId::of(object);
//!     let image = board.create_user_thread(thread, budget, Backing::There)?;
//!     board.start(thread, Space::default(), Context::default())?;
//!     Ok(Service { budget, object, thread, image })
//! }
//!
//! /// Ends the thread, and gives back what the service had.
//! fn switch_off(board: &mut Board, service: &Service, now: Tick) -> Result<(), Refusal> {
//!     board.kill(service.thread, Cause::Destroyed)?;
//!     board.remove(service.object, now.time()?)?;
//!     board.remove(service.budget, now.time()?)
//! }
//!
//! # let mut board = Board::open(Limits { cpu_ns: carv::PERIOD_NS, memory_bytes: 100_000 })?;
//! let counting = Limits { cpu_ns: 4_000_000, memory_bytes: 40_000 };
//! let service = switch_on(&mut board, counting, Tick(0))?;
//!
//! // A second one would have more than is left. A refusal has a number, a meaning and an advice.
//! let camera = Limits { cpu_ns: 7_000_000, memory_bytes: 40_000 };
//! match switch_on(&mut board, camera, Tick(0)) {
//!     Ok(_) => println!("the camera is on"),
//!     Err(refusal) => println!("{refusal}. {}", refusal.advice()),
//! }
//! # assert_eq!(switch_on(&mut board, camera, Tick(0)).err(), Some(Refusal::Limit));
//!
//! switch_off(&mut board, &service, Tick(3))?;
//! # assert_eq!(board.totals(ObjectId::ROOT)?.memory_used_bytes, 0);
//! # Ok::<(), Refusal>(())
//! ```
//!
//! # What a kernel owes and must know
//!
//! A clock that doesn't fall. A [`Tick`] is a number, a time is in [`Nanoseconds`], and tick n is
//! the time n × [`TICK_NS`]. As long as the times of calls that are accepted, or refused with
//! [`Refusal::Limit`], never fall from an opening on, in each period of [`PERIOD_NS`] counted from
//! time 0 the CPU time charged to a budget and to all below it, those removed meanwhile included,
//! is at most that budget's share. With a clock that falls it may be more; no call asks for it. The
//! tick that a sleep waits for is none of these times.
//!
//! Stack. A call takes at most [`STACK_BYTES`] in a release build: 18,112 bytes of it are the
//! library's (`docs/LAYOUT.md` has each function). The wrapper adds some hundred bytes, a KiB where
//! it answers a register image by value, and half a KiB with `save-sse`; a build without
//! optimization takes up to 4 KiB more. Only what answers a [`Board`] by value, [`Board::open`],
//! [`Board::from_bytes`], `clone` and, outside of a `static` or `const`, [`Board::unopened`], takes the
//! board's [`AREA_BYTES`] bytes too: that is for hosted programs.
//!
//! Registers. The library uses SSE registers and leaves them changed. With the feature `save-sse`
//! the SSE and x87 registers are saved before each call of the library, and restored after it
//! (`fxsave64`, `fxrstor64`). That is for a kernel that calls from an interrupt, and whose own code
//! is built without these registers, as for `x86_64-unknown-none`. The processor must have SSE
//! switched on (CR4.OSFXSR) in any case.
//!
//! The crate is `no_std` and allocates nothing. `carv-sys` below it links `libcarv.a` from the
//! folder that `CARV_LIB_DIR` names, by default `target/staticlib` of the repository: that is the
//! feature `link`, which is on by default. Without it the library needn't be there: everything
//! compiles and links, and a call panics.

#![no_std]
#![deny(unsafe_code)]

mod answers;
mod board;
mod by_code;
mod codes;
#[allow(unsafe_code)]
mod ffi;
mod ids;
mod image;
mod objects;
mod refusal;
mod threads;
mod times;

pub use answers::{Account, Charge, Context, Limits, Planned, Space, Switch, ThreadRecord, Totals};
pub use board::Board;
pub use codes::{Backing, Cause, Kind, State, UnlistedCode, Wait};
pub use ffi::c;
pub use ids::{ObjectId, ThreadId};
pub use image::Image;
pub use refusal::Refusal;
pub use times::{Nanoseconds, Tick};

/// Bytes of a board.
pub const AREA_BYTES: usize = carv_sys::CARV_AREA_BYTES;
/// The most bytes of stack that a call of this crate takes in a release build, with the feature
/// `save-sse` too, but for what answers a [`Board`] by value. The host's `memset`, `memmove` and
/// `memcpy` come on top.
pub const STACK_BYTES: usize = 20 * 1_024;

/// Bytes of a register image.
pub const IMAGE_BYTES: usize = carv_sys::CARV_IMAGE_BYTES;

/// The most objects of a board, the root budget among them.
pub const MOST_OBJECTS: usize = carv_sys::CARV_MOST_OBJECTS;
/// The most threads of a board, thread 0 and idle among them.
pub const MOST_THREADS: usize = carv_sys::CARV_MOST_THREADS;
/// How many ends of threads the exit log holds.
pub const MOST_EXITS: usize = carv_sys::CARV_MOST_EXITS;

/// The period of every budget, in ns.
pub const PERIOD_NS: u64 = carv_sys::CARV_PERIOD_NS;
/// What a tick books, in ns. Tick n is the time n × `TICK_NS`.
pub const TICK_NS: u64 = carv_sys::CARV_TICK_NS;
/// The last tick whose time is below 2^64 ns.
pub const LAST_TICK: u64 = carv_sys::CARV_LAST_TICK;
/// The FNV-1a sum of the library that is linked, in hexadecimal digits; none without the feature
/// `link`.
pub const LIBRARY_FNV1A: Option<&str> = carv_sys::LIBRARY_FNV1A;
