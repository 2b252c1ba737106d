//! The sheet that a picture is drawn on: its measures, and what both plots have.

use super::figures::{self, Line};
use super::scene::Scene;
use super::style::{FAINT, INK, NAME, NUMBER, PATTERNS, SMALL};
use crate::svg::{Anchor, Svg, Type};
use carv_text::figures::{cut, cut_inside, ms};
use carv_watch::{Kind, Row, TICKS};

/// The widest plot, ms and column, and the least room for figures right of the plots.
const PLOT: f64 = 920.0;
const MS: f64 = 30.0;
const COLUMN: f64 = 92.0;
const RIGHT: f64 = 150.0;
/// What figures keep from the plot, and from the sheet's edge.
const BESIDE: f64 = 12.0;
/// The most characters of a row's name.
const NAME_WIDTH: usize = 28;
/// With more rows than this they stand closer.
const ROOMY: usize = 10;

pub struct Sheet {
    pub svg: Svg,
    /// Left edge of the plots.
    pub left: f64,
    /// Width of a ms in the window, and of a column in the summary.
    pub ms: f64,
    pub column: f64,
    /// Right edge of the wider plot, and of the sheet.
    right: f64,
    pub edge: f64,
    pub dense: bool,
}

impl Sheet {
    pub fn new(scene: &Scene<'_>) -> Self {
        let mut svg = Svg::new();
        svg.raw(PATTERNS);
        let names = scene
            .drawn()
            .map(|(_, row)| cut_inside(&row.name, NAME_WIDTH));
        let widest = names.map(|name| width(&name, NAME)).fold(0.0, f64::max);
        let left = f64::max(132.0, widest + 34.0);
        let figures = scene.drawn().flat_map(|(_, row)| figures::of_all(row));
        let figures = figures.map(|(look, text)| width(&text, look) + 2.0 * BESIDE);
        let right = figures.fold(RIGHT, f64::max);
        let shown = (scene.window.len() * TICKS as usize).max(1) as f64;
        let columns = scene.columns.count.max(1) as f64;
        let (ms, column) = (MS.min(PLOT / shown), COLUMN.min(PLOT / columns));
        Self {
            svg,
            left,
            ms,
            column,
            right: left + f64::max(ms * shown, column * columns),
            edge: left + PLOT + right,
            dense: scene.drawn.len() > ROOMY,
        }
    }

    pub fn finish(self, height: f64, title: &str) -> String {
        self.svg.finish(self.edge, height, title)
    }

    /// The name of a row, and below it what its figures are out of.
    pub fn label(&mut self, top: f64, row: &Row) {
        let whole = match (row.kind, row.total.shares_ns) {
            (Kind::NoBudget, _) => "thread 0".to_string(),
            (Kind::Idle, _) => "nothing else runs".to_string(),
            (Kind::Budget, None) => "no share".to_string(),
            (Kind::Budget, Some((low, high))) if low == high => format!("share {} ms", ms(low)),
            (Kind::Budget, Some((low, high))) => format!("share {} to {} ms", ms(low), ms(high)),
        };
        let name = cut_inside(&row.name, NAME_WIDTH);
        let x = self.left - 14.0;
        self.svg.text((x, top + 14.0), Anchor::End, NAME, &name);
        self.svg.text((x, top + 29.0), Anchor::End, SMALL, &whole);
    }

    /// A text that ends before the sheet does.
    pub fn line_of_text(&mut self, (x, y): (f64, f64), look: Type, text: &str) {
        let room = self.edge - 12.0 - x;
        let characters = room / width("x", look);
        let text = cut(text, characters as usize);
        self.svg.text((x, y), Anchor::Start, look, &text);
    }

    /// Figures right of a row.
    pub fn figures(&mut self, top: f64, lines: &[Line]) {
        let step = if self.dense { 11.5 } else { 13.0 };
        let mut y = top + 10.0;
        for (look, text) in lines {
            let at = (self.right + BESIDE, y);
            self.svg.text(at, Anchor::Start, *look, text);
            y += step;
        }
    }

    /// The number of an event.
    pub fn bubble(&mut self, (x, y): (f64, f64), number: usize) {
        self.svg.raw(&format!(
            r#"<circle cx="{x:.1}" cy="{y:.1}" r="8" fill="{INK}"/>"#
        ));
        let at = (x, y + 4.0);
        self.svg
            .text(at, Anchor::Middle, NUMBER, &number.to_string());
    }

    /// A mark on an axis, with a text below it.
    pub fn mark(&mut self, (x, y): (f64, f64), text: &str) {
        self.svg.line((x, y), (x, y + 5.0), FAINT, "");
        let at = (x, y + 18.0);
        self.svg.text(at, Anchor::Middle, SMALL, text);
    }
}

/// About how wide a text is. Fonts differ; this is a wide one.
pub fn width(text: &str, look: Type) -> f64 {
    let character = if look.bold { 0.63 } else { 0.53 };
    text.chars().count() as f64 * f64::from(look.size) * character
}
