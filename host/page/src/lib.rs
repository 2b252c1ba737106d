//! A report as one HTML file: answers first, then what was asked, tables, the picture, refusals,
//! events, and the [`Stamp`], which says what the answers rest on. Nothing is fetched from
//! elsewhere; it can be read on a narrow screen, on a wide one and on paper.
//! `host/page/README.md` says more.
//!
//! ```
//! use carv_page::{Answer, Mark, Page, Question, Stamp};
//!
//! let page = Page {
//!     title: "Coins on Monday".to_string(),
//!     questions: vec![Question {
//!         text: "Did each service get its share?".to_string(),
//!         answers: vec![Answer {
//!             mark: Mark::Good,
//!             text: "Counting got its 4 ms in each of 300 periods.".to_string(),
//!         }],
//!         note: String::new(),
//!     }],
//!     stamp: Stamp::of(Ok("fnv1a: 0123"), Some("4567")),
//!     ..Page::default()
//! };
//! assert!(page.html().contains("not stamped: "));
//! ```

#![forbid(unsafe_code)]

mod date;
mod html;
mod page;
mod parts;
mod program;
mod stamp;

pub use date::utc;
pub use page::{
    Align, Answer, Column, Event, Events, Fact, Mark, Page, Picture, Question, Refusal, Table,
};
pub use program::{COMMIT_VARIABLE, command, tool};
pub use stamp::{STAMP_VARIABLE, Stamp, Stamped};
