//! What a row got of its share in periods of the window: for each an outline of the share, filled as
//! far as it was used, and a mark of how the period went.

use super::columns::is_used_up;
use super::marks::Marks;
use super::style::{MISSED, STRIPES};
use crate::svg::{Area, Svg};
use carv::TICK_NS;
use carv_watch::{Outcome, Part};

/// The height of a meter, and the width of a mark behind it.
pub const METER: f64 = 7.0;
const MARK: f64 = 6.0;
const BESIDE: f64 = 5.0;

/// The meters of a row.
pub struct Meters {
    /// Width of a ms.
    ms: f64,
    top: f64,
    got: Vec<(f64, f64, f64)>,
    got_partial: Vec<(f64, f64, f64)>,
    missed: Vec<Area>,
    shares: Vec<Area>,
    shares_partial: Vec<Area>,
    marks: Marks,
}

impl Meters {
    /// At this height, for ms of this width.
    pub fn new(ms: f64, top: f64) -> Self {
        Self {
            ms,
            top,
            got: Vec::new(),
            got_partial: Vec::new(),
            missed: Vec::new(),
            shares: Vec::new(),
            shares_partial: Vec::new(),
            marks: Marks::default(),
        }
    }

    /// Adds what it did in a period whose band goes from `left` to `right`.
    pub fn add(&mut self, part: &Part, (left, right): (f64, f64)) {
        let width = |ns: u64| ns as f64 / TICK_NS as f64 * self.ms;
        let (whole, got) = (width(part.share_ns), width(part.got_ns));
        let share = Area(left, self.top, whole, METER);
        let level = (left, left + got, self.top + METER / 2.0);
        let (levels, shares) = match part.is_whole() {
            true => (&mut self.got, &mut self.shares),
            false => (&mut self.got_partial, &mut self.shares_partial),
        };
        shares.push(share);
        if got > 0.0 {
            levels.push(level);
        }
        if part.missed_ns > 0 {
            let missed = width(part.missed_ns);
            self.missed.push(Area(left + got, self.top, missed, METER));
        }
        self.mark(part, left + whole, left, right);
    }

    /// Marks how a period went, behind the share's end, where there is room for it.
    fn mark(&mut self, part: &Part, end: f64, left: f64, right: f64) {
        let is_missed = part.outcome == Some(Outcome::Missed);
        let marks = u8::from(part.held_back) + u8::from(is_missed);
        let room = f64::from(marks) * (MARK + 2.0);
        let mut x = f64::min(end + BESIDE, right - room);
        if is_used_up(part) {
            let line = (left, f64::max(end, left + 3.0));
            self.marks.used_up(line, self.top + METER + 1.8);
        }
        if is_missed {
            self.marks.missed((x, self.top + 0.3), MARK + 1.0, 1.0);
            x += MARK + 3.0;
        }
        if part.held_back {
            self.marks.held_back((x, self.top + 1.0), MARK, 1.0);
        }
    }

    pub fn draw(&self, svg: &mut Svg, colour: &str) {
        let filled = format!(r#"stroke-width="{METER}""#);
        svg.levels(&self.got, colour, &format!(r#"class="got" {filled}"#));
        let striped = format!(r#"class="got partial" {filled} {STRIPES}"#);
        svg.levels(&self.got_partial, colour, &striped);
        svg.rects(&self.missed, MISSED, r#"class="missed-part""#);
        let outline = format!(r#"stroke="{colour}" stroke-width="1.2""#);
        svg.rects(&self.shares, "none", &format!(r#"class="share" {outline}"#));
        let striped = format!(r#"class="share partial" {outline} {STRIPES}"#);
        svg.rects(&self.shares_partial, "none", &striped);
        self.marks.draw(svg, true);
    }
}
