//! A plot of a picture, read back: what stands in which row and at which time.

use crate::reading::{Extent, shapes, texts};
use carv_text::figures::grouped;
use carv_watch::TICKS;

/// Labels of an axis stand right of this, the times in the list of events left of it.
const LEFT: f64 = 131.0;

/// One of the two plots.
pub struct Panel<'a> {
    svg: &'a str,
    /// 0: the window, 1: the summary.
    which: usize,
    /// Where 0 ms is, and the width of a ms.
    zero: f64,
    ms: f64,
}

impl<'a> Panel<'a> {
    /// The window and the summary, both with labels of these times on their axes.
    pub fn both(svg: &'a str, one: u64, two: u64) -> [Self; 2] {
        [0, 1].map(|which| Self::new(svg, which, one, two))
    }

    /// The summary, with labels of these times on its axis.
    pub fn summary(svg: &'a str, one: u64, two: u64) -> Self {
        Self::new(svg, 1, one, two)
    }

    fn new(svg: &'a str, which: usize, one: u64, two: u64) -> Self {
        let x = |time| label(svg, which, time);
        let ms = (x(two) - x(one)) / (two - one) as f64;
        let zero = x(one) - one as f64 * ms;
        Self {
            svg,
            which,
            zero,
            ms,
        }
    }

    /// When it is at this place, in ms.
    pub fn time(&self, x: f64) -> f64 {
        (x - self.zero) / self.ms
    }

    /// Where the row of this name begins and ends.
    fn row(&self, name: &str) -> (f64, f64) {
        const NAME_BELOW: f64 = 14.0;
        let top = texts(self.svg, name)[self.which].1 - NAME_BELOW;
        let height = match self.which {
            0 => 48.0,
            _ => 60.0,
        };
        (top, top + height)
    }

    /// What has these words in its class, in a row.
    pub fn shapes(&self, row: &str, classes: &[&str]) -> Vec<Extent> {
        let (top, bottom) = self.row(row);
        let mut shapes = shapes(self.svg, classes);
        shapes.retain(|shape| top - 1.0 < shape.top && shape.bottom < bottom);
        shapes
    }

    /// The periods in which a row has something of this class. What reaches across several is in
    /// each of them.
    pub fn periods(&self, row: &str, classes: &[&str]) -> Vec<u64> {
        const EDGE: f64 = 0.3;
        let number = |x| ((self.time(x) + 1.0) / TICKS as f64) as u64;
        let shapes = self.shapes(row, classes);
        let numbers = shapes.iter().flat_map(|shape| {
            let right = f64::max(shape.left + EDGE, shape.right - EDGE);
            number(shape.left + EDGE)..=number(right)
        });
        numbers.collect()
    }
}

/// Where the label of this time stands in a plot: the axis of the window comes first.
pub fn label(svg: &str, which: usize, time: u64) -> f64 {
    let text = format!("{} ms", grouped(time));
    let axes = texts(svg, &text).into_iter().filter(|(x, _)| *x > LEFT);
    let axes: Vec<(f64, f64)> = axes.collect();
    match which {
        0 => axes[0].0,
        _ => axes[axes.len() - 1].0,
    }
}
