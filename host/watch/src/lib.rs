//! What was seen of a board, tick by tick: who ran when, and what each got of what it wanted.
//!
//! A [`Timeline`] is shown each tick of a [`carv::Board`]; [`Rows`] reads it row by row, a row for
//! the budgets of one name, and [`Threads`] thread by thread. Of each period both say whether it was
//! [missed](Outcome::Missed): whether somebody wanted more than it got although it had time.
//! `host/watch/README.md` has the rules.
//!
//! ```
//! use carv::{Board, Limits};
//! use carv_watch::{Rows, Timeline};
//!
//! let mut board = Board::open(Limits { cpu_ns: 10_000_000, memory_bytes: 1_000_000 })?;
//! let mut timeline = Timeline::new();
//! for n in 1..=20 {
//!     let before = timeline.before(n, &board);
//!     board.tick(carv::Tick(n))?;
//!     timeline.tick(before, &board);
//!     let planned = board.plan(carv::Tick(n))?;
//! }
//! timeline.end(&board);
//! let rows = Rows::new(&timeline);
//! assert_eq!(rows.rows()[0].name, "no budget");
//! assert_eq!(rows.rows()[0].total.ms_ran, 20);
//! # Ok::<(), carv::Refusal>(())
//! ```

mod accounts;
mod doing;
mod glimpse;
mod outcome;
mod part;
mod period;
mod rows;
mod threads;
mod timeline;
mod total;
mod wait;

pub use accounts::accounts;
pub use doing::Doing;
pub use glimpse::Glimpse;
pub use outcome::{Judged, Outcome};
pub use part::Part;
pub use period::PLACES;
pub use rows::{Kind, Row, Rows};
pub use threads::{Thread, Threads};
pub use timeline::{Event, MOST_EVENTS, Timeline};
pub use total::{Missed, MissedPeriod, Total};
pub use wait::Wait;

use carv::{PERIOD_NS, TICK_NS};

/// Ticks in a period.
pub const TICKS: u64 = PERIOD_NS / TICK_NS;
