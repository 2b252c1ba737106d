//! Colours, hatches and type of the picture.

use crate::svg::Type;

pub const INK: &str = "#222222";
pub const FAINT: &str = "#5f6368";
pub const RULE: &str = "#c4c7cc";
pub const BAND: &str = "#f6f7f9";

pub const TITLE: Type = look(22, true, INK);
pub const HEADING: Type = look(15, true, INK);
pub const NAME: Type = look(14, true, INK);
pub const TEXT: Type = look(13, false, INK);
pub const SMALL: Type = look(11, false, FAINT);
pub const STRONG: Type = look(11, true, INK);
pub const NUMBER: Type = look(11, true, "white");

const fn look(size: u32, bold: bool, colour: &'static str) -> Type {
    Type { size, bold, colour }
}

/// Hatches: a Ready thread without time left, a budget that is not live, a ms without a tick, what was
/// missed of a share.
pub const PATTERNS: &str = r##"<defs>
<pattern id="held" width="5" height="5" patternUnits="userSpaceOnUse" patternTransform="rotate(45)"><rect width="5" height="5" fill="#fbe9e7"/><rect width="1.8" height="5" fill="#b3261e"/></pattern>
<pattern id="off" width="7" height="7" patternUnits="userSpaceOnUse" patternTransform="rotate(-45)"><rect width="7" height="7" fill="#f1f3f4"/><rect width="1.2" height="7" fill="#c4c7cc"/></pattern>
<pattern id="unseen" width="5" height="5" patternUnits="userSpaceOnUse"><rect width="5" height="5" fill="white"/><circle cx="2.5" cy="2.5" r="0.8" fill="#c4c7cc"/></pattern>
<pattern id="missed" width="3" height="3" patternUnits="userSpaceOnUse" patternTransform="rotate(45)"><rect width="3" height="3" fill="white"/><rect width="1.4" height="3" fill="#222222"/></pattern>
</defs>"##;
pub const HELD: &str = "url(#held)";
pub const OFF: &str = "url(#off)";
pub const UNSEEN: &str = "url(#unseen)";
pub const MISSED: &str = "url(#missed)";
pub const SHOWN_INK: &str = "#fff3c4";

/// The opacity of a budget that waits its turn, and of what it got beyond the least.
pub const WAITS: &str = "0.25";
pub const BEYOND: &str = "0.45";

/// Stripes of what belongs to a partial period.
pub const STRIPES: &str = r#"stroke-dasharray="2 1.5""#;

/// Lines: of a share, of an event, of a gap in time.
pub const DASHES: &str = r#"stroke-dasharray="4 3""#;
pub const THIN: &str = r#"stroke-width="0.8""#;
pub const DOTS: &str = r#"stroke-width="2" stroke-dasharray="2 3""#;

/// What it means if a period has no mark, and what the stripes mean.
pub const UNMARKED: &str = "no mark: wanted no more, or not all was seen";
pub const PARTIAL: &str = "partial: on, or seen, for a part of the time";
