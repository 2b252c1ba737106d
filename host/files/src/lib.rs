//! Files that a program writes. [`OutputFile::prepare`] says before the work that one can't be
//! written; [`OutputFile::finish`] puts it in its place as a whole, so that a program that ends before
//! its time leaves the old one. [`apart`] refuses to write over what is read, or twice to one place.
//!
//! ```
//! use carv_files::{OutputFile, apart};
//! use std::path::Path;
//!
//! let folder = std::env::temp_dir();
//! let (list, picture) = (folder.join("some.calls"), folder.join("some.svg"));
//! apart(&[("the list", &list)], &[("the picture", &picture)])?;
//! let file = OutputFile::prepare("the picture", &picture)?;
//! // Long work.
//! file.finish_with(b"<svg/>")?;
//! # std::fs::remove_file(picture)?;
//! # Ok::<(), Box<dyn std::error::Error>>(())
//! ```

mod apart;
mod output;
mod place;

pub use apart::{SameFile, apart};
pub use output::{CannotWrite, OutputFile};
pub use place::is_special;
