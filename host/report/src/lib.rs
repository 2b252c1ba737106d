//! Did each service get its share in every period in which it wanted it?
//!
//! A [`Watch`] observes the calls made on a [`carv::Board`]. A [`Report`] says of each service, budget
//! and thread what it wanted and got, which periods it missed and how long it waited, what it spent
//! with all below it, its memory, refusals and renewals. It is printed as text, JSON and CSV, and
//! [`Short`] has the answers alone. `host/report/README.md` has the figures one by one.
//!
//! ```
//! use carv::{Backing, Board, Context, Limits, Nanoseconds, ObjectId, Space, ThreadId, Tick};
//! use carv_report::{Report, Watch};
//!
//! let mut board = Board::unopened();
//! let mut watch = Watch::new();
//! let root = Limits { cpu_ns: 10_000_000, memory_bytes: 1_000_000 };
//! watch.call(1, "open", &[root.cpu_ns, root.memory_bytes], &mut board, |board| board.reopen(root))?;
//! let share = Limits { cpu_ns: 4_000_000, memory_bytes: 0 };
//! let counting = watch.call(2, "create_budget", &[1, 4_000_000, 0, 0], &mut board, |board| {
//!     board.create_budget(ObjectId::ROOT, share, Nanoseconds(0))
//! })?;
//! watch.name(counting, "counting");
//! let thread = ThreadId(7);
//! watch.call(3, "create_user_thread", &[7, counting.0, 1], &mut board, |board| {
//!     board.create_user_thread(thread, counting, Backing::There).map(|_| ())
//! })?;
//! watch.call(4, "start", &[7, 0, 0, 0, 0, 0, 514, 0, 0, 0, 0], &mut board, |board| {
//!     board.start(thread, Space::default(), Context::default())
//! })?;
//! for n in 1..=19 {
//!     watch.call(5, "tick", &[n], &mut board, |board| board.tick(Tick(n)))?;
//!     watch.call(5, "plan", &[n], &mut board, |board| board.plan(Tick(n)))?;
//! }
//! watch.end(&board);
//! let report = Report::new(&watch);
//! assert_eq!(
//!     report.services[0].answer(),
//!     "counting: used up its 4 ms in the one whole period, missed none",
//! );
//! # Ok::<(), carv::Refusal>(())
//! ```

mod accounts;
mod answer;
mod csv;
mod fields;
mod json;
mod page;
mod refusals;
mod report;
mod rows;
mod short;
mod text;
mod watch;

pub use answer::answer;
pub use csv::COLUMNS;
pub use page::About;
pub use refusals::Refusals;
pub use report::Report;
pub use rows::{BoardRow, BudgetRow, Figures, Memory, MissedAt, ServiceRow, Spent, ThreadRow};
pub use short::Short;
pub use watch::Watch;
