//! The bars of a row in the summary: one for each column, and marks below it of how its periods went.

use super::columns::Column;
use super::marks::{MISSED, Marks, USED_UP};
use super::style::{BEYOND, FAINT, OFF, STRIPES};
use crate::svg::{Area, Svg};

/// How far below the bars the marks begin, and what they keep from each other.
const BELOW: f64 = 2.0;
const APART: f64 = 1.2;
/// The least width of a triangle that stands alone.
const LONE: f64 = 7.0;
/// Columns narrower than this stand closer.
const NARROW: f64 = 6.0;

/// Where the bars of a row stand.
#[derive(Clone, Copy)]
pub struct Place {
    pub left: f64,
    /// Width of a column.
    pub step: f64,
    pub top: f64,
    /// The height that stands for `whole`.
    pub height: f64,
    /// What the height stands for, in ns.
    pub whole: f64,
}

impl Place {
    fn x(&self, column: usize) -> f64 {
        self.left + column as f64 * self.step
    }

    /// Width of a bar.
    fn width(&self) -> f64 {
        self.step - if self.step < NARROW { 0.4 } else { 1.0 }
    }

    /// Where the bars stand.
    fn base(&self) -> f64 {
        self.top + self.height
    }

    /// Where so many ns end.
    fn y(&self, ns: f64) -> f64 {
        self.base() - self.height * ns / self.whole
    }
}

/// A vertical line: place, from, to.
type Upright = (f64, f64, f64);

/// Bars that look alike.
#[derive(Default)]
struct Alike {
    least: Vec<Upright>,
    average: Vec<Upright>,
    most: Vec<Upright>,
}

impl Alike {
    /// A bar: solid up to the least of its periods, pale to the average, thin to the most.
    fn add(&mut self, place: &Place, x: f64, column: &Column) {
        let (least, average) = (column.least_ns(), column.got_ns());
        for (uprights, from, to) in [
            (&mut self.least, 0.0, least),
            (&mut self.average, least, average),
            (&mut self.most, average, column.most_ns()),
        ] {
            if to > from {
                uprights.push((x, place.y(from), place.y(to)));
            }
        }
    }

    /// Draws them, `more` in their class and look.
    fn draw(&self, svg: &mut Svg, width: f64, colour: &str, more: (&str, &str)) {
        let class = |class: &str| format!(r#"class="{class}{}""#, more.0);
        let look = |name: &str| format!(r#"{} stroke-width="{width:.1}" {}"#, class(name), more.1);
        svg.uprights(&self.least, colour, &look("least"));
        let pale = format!(r#"{} stroke-opacity="{BEYOND}""#, look("average"));
        svg.uprights(&self.average, colour, &pale);
        svg.uprights(&self.most, colour, &class("most"));
    }
}

/// The bars of a row.
pub struct Bars {
    place: Place,
    off: Vec<Area>,
    whole: Alike,
    partial: Alike,
    /// From the top of a partial bar to the share.
    stems: Vec<Upright>,
    marks: Marks,
    /// Where the lines of what was used up begin: below the triangles, if a column has both.
    lines: f64,
}

impl Bars {
    /// The bars of these columns. A partial one has a stem as high as its share, or as all time
    /// where there is none.
    pub fn new(columns: &[Column], place: Place, has_share: bool) -> Self {
        let has_both = |column: &Column| column.missed() > 0.0 && column.is_used_up();
        let triangles = match columns.iter().any(has_both) {
            true => MISSED + APART,
            false => 0.0,
        };
        let mut bars = Self {
            lines: place.base() + BELOW + triangles,
            place,
            off: Vec::new(),
            whole: Alike::default(),
            partial: Alike::default(),
            stems: Vec::new(),
            marks: Marks::default(),
        };
        for (at, column) in columns.iter().enumerate() {
            bars.add(place.x(at), column, has_share);
        }
        bars.mark_missed(columns);
        bars
    }

    fn add(&mut self, left: f64, column: &Column, has_share: bool) {
        let place = self.place;
        if !column.is_on() {
            let area = Area(left, place.top, place.step, place.height);
            self.off.push(area);
            return;
        }
        let middle = left + place.width() / 2.0;
        if column.is_partial() {
            self.partial.add(&place, middle, column);
            let whole = if has_share {
                column.share_ns()
            } else {
                place.whole
            };
            if column.most_ns() < whole {
                let stem = (middle, place.y(column.most_ns()), place.y(whole));
                self.stems.push(stem);
            }
        } else {
            self.whole.add(&place, middle, column);
        }
        self.mark(left, column);
    }

    fn mark(&mut self, left: f64, column: &Column) {
        let width = self.place.width();
        if column.is_used_up() {
            let ends = (left, left + self.place.step);
            self.marks.used_up(ends, self.lines);
        }
        if column.held_back() > 0.0 {
            let at = (left, self.lines + USED_UP + APART);
            self.marks.held_back(at, width, column.held_back());
        }
    }

    /// A triangle below each bar that has a missed period; one that stands alone is wide enough to be
    /// found.
    fn mark_missed(&mut self, columns: &[Column]) {
        let is_missed = |at: usize| columns.get(at).is_some_and(|column| column.missed() > 0.0);
        for (at, column) in columns.iter().enumerate() {
            if !is_missed(at) {
                continue;
            }
            let is_lone = !is_missed(at + 1) && at.checked_sub(1).is_none_or(|at| !is_missed(at));
            let least = if is_lone { LONE } else { 0.0 };
            let width = self.place.width().max(least);
            let left = self.place.x(at) - (width - self.place.width()) / 2.0;
            let top = self.place.base() + BELOW;
            self.marks.missed((left, top), width, column.missed());
        }
    }

    pub fn draw(&self, svg: &mut Svg, colour: &str) {
        svg.rects(&self.off, OFF, "");
        let width = self.place.width();
        self.whole.draw(svg, width, colour, ("", ""));
        let partial = (" partial", STRIPES);
        self.partial.draw(svg, width, colour, partial);
        let stem = format!(r#"class="stem partial" {STRIPES}"#);
        svg.uprights(&self.stems, FAINT, &stem);
        self.marks.draw(svg, false);
    }
}
