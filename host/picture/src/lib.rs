//! Who ran when on a board, against the shares, as a picture.
//!
//! [`draw`] makes an SVG picture of a [`Timeline`], what was seen of a board tick by tick.
//! `host/picture/README.md` says what it shows.
//!
//! ```
//! use carv::{Board, Limits};
//! use carv_picture::{Look, draw};
//! use carv_watch::Timeline;
//!
//! let mut board = Board::open(Limits { cpu_ns: 10_000_000, memory_bytes: 1_000_000 })?;
//! let mut timeline = Timeline::new();
//! for n in 1..=20 {
//!     let before = timeline.before(n, &board);
//!     board.tick(carv::Tick(n))?;
//!     timeline.tick(before, &board);
//!     let planned = board.plan(carv::Tick(n))?;
//! }
//! let look = Look { title: "Thread 0 alone".to_string(), subtitle: String::new() };
//! assert!(draw(&timeline, &look, None).contains("no budget"));
//! # Ok::<(), carv::Refusal>(())
//! ```
//!
//! [`Timeline`]: carv_watch::Timeline

mod palette;
mod picture;
mod svg;

pub use picture::{Look, SHOWN, draw};
