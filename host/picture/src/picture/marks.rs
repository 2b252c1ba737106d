//! The marks of how a period went. They differ in shape as well as in colour.

use super::style::INK;
use crate::svg::{Area, Svg};

/// A line: it used its share up.
pub const USED_UP: f64 = 1.8;
/// A block: it was held back.
const HELD_BACK: f64 = 5.0;
/// A triangle: it missed something.
pub const MISSED: f64 = 6.5;
/// The least heights of a block and of a triangle that stand for a few of many periods.
const LEAST_BLOCK: f64 = 2.5;
const LEAST_TRIANGLE: f64 = 4.0;
/// Lines that are closer than this are one.
const TOUCHING: f64 = 0.01;
/// The widest triangle.
const WIDEST: f64 = 9.0;

const USED_UP_INK: &str = "#5f6368";
const HELD_BACK_INK: &str = "#b3261e";
const HALO: &str = r#"stroke="white" stroke-width="1.6" paint-order="stroke""#;

/// The marks of a row, by kind.
#[derive(Default)]
pub struct Marks {
    used_up: Vec<(f64, f64, f64)>,
    held_back: Vec<Area>,
    missed: Vec<Area>,
}

impl Marks {
    /// A line from left to right, its upper edge at this height. It goes on where the last one ends.
    pub fn used_up(&mut self, (left, right): (f64, f64), top: f64) {
        match self.used_up.last_mut() {
            Some((_, end, _)) if (left - *end).abs() < TOUCHING => *end = right,
            _ => self.used_up.push((left, right, top + USED_UP / 2.0)),
        }
    }

    /// A block, the higher the more of the periods that it stands for were held back.
    pub fn held_back(&mut self, (left, top): (f64, f64), width: f64, often: f64) {
        let height = LEAST_BLOCK + (HELD_BACK - LEAST_BLOCK) * often;
        self.held_back.push(Area(left, top, width, height));
    }

    /// A triangle in the middle of a width, the higher the more of the periods that it stands for were
    /// missed.
    pub fn missed(&mut self, (left, top): (f64, f64), width: f64, often: f64) {
        let height = LEAST_TRIANGLE + (MISSED - LEAST_TRIANGLE) * often;
        let narrow = width.min(WIDEST);
        let left = left + (width - narrow) / 2.0;
        self.missed.push(Area(left, top, narrow, height));
    }

    /// Draws them, over others with a white edge.
    pub fn draw(&self, svg: &mut Svg, over_others: bool) {
        let halo = if over_others { HALO } else { "" };
        let line = format!(r#"class="used-up" stroke-width="{USED_UP}""#);
        svg.levels(&self.used_up, USED_UP_INK, &line);
        let block = format!(r#"class="held-back" {halo}"#);
        svg.rects(&self.held_back, HELD_BACK_INK, &block);
        let triangle = format!(r#"class="missed" {halo}"#);
        svg.triangles(&self.missed, INK, &triangle);
    }
}

#[cfg(test)]
mod tests {
    use super::*;

    /// One of very many periods is still seen.
    #[test]
    fn never_invisible() {
        let mut marks = Marks::default();
        for often in [0.0, 0.5, 1.0] {
            marks.held_back((0.0, 0.0), 3.0, often);
            marks.missed((0.0, 0.0), 3.0, often);
        }
        let heights = |areas: &[Area]| areas.iter().map(|area| area.3).collect::<Vec<_>>();
        assert_eq!(heights(&marks.held_back), [LEAST_BLOCK, 3.75, HELD_BACK]);
        assert_eq!(heights(&marks.missed), [LEAST_TRIANGLE, 5.25, MISSED]);
    }
}
