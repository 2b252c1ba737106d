//! What the host's programs print with: [`figures`] and long texts as a reader reads them, [`json`],
//! [`table`]s of aligned columns, and sentences on standard error, by [`say`]; and what they read with:
//! [`line`] and [`nearest`].

pub mod figures;
pub mod json;
pub mod line;
pub mod nearest;
mod say;
pub mod table;

pub use say::{say, say_text};
