//! What a board did over time, as a trace for Perfetto (ui.perfetto.dev) and chrome://tracing, in
//! Chrome's Trace Event Format.
//!
//! A [`Tracer`] is told each call, with the board after it, and writes as it goes: a track for each
//! thread with its states, counters of each budget, and instants for what happened.
//! `host/trace/README.md` says what is drawn where.
//!
//! ```
//! use carv::{Board, Limits};
//! use carv_ledger::Call;
//! use carv_trace::{Made, Tracer};
//!
//! let mut board = Board::unopened();
//! let mut file = Vec::new();
//! let mut tracer = Tracer::new(&mut file, &board)?;
//! for (line, text, arguments) in [(1, "open 10000000 4096", &[10_000_000, 4_096][..]), (2, "tick 1", &[1])] {
//!     let name = text.split(' ').next().unwrap_or_default();
//!     let call = Call::parse(name, arguments)?;
//!     match call {
//!         Call::Open { cpu, memory } => board.reopen(Limits { cpu_ns: cpu, memory_bytes: memory })?,
//!         _ => board.tick(carv::Tick(1))?,
//!     }
//!     tracer.note(&Made { line, call, number: 0, text: &text }, &board)?;
//! }
//! tracer.finish()?;
//! let text = String::from_utf8(file)?;
//! assert!(text.contains(r#"{"ph":"X","pid":1,"tid":1,"ts":0,"dur":1000,"name":"Running","cname":"good"}"#));
//! # Ok::<(), Box<dyn std::error::Error>>(())
//! ```

mod clock;
mod doing;
mod event;
mod file;
mod gauges;
mod look;
mod names;
mod tracer;
mod tracks;

pub use clock::{LATEST_NS, LEAP_NS};
pub use event::{EVENTS, PID};
pub use file::TraceFile;
pub use tracer::{Made, Tracer};
