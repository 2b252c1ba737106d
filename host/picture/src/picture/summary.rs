//! All periods: what each row got in each, against its share.

use super::bars::{Bars, Place};
use super::columns::Column;
use super::events;
use super::figures;
use super::legend::{Legend, Sign};
use super::scene::{Drawn, Scene};
use super::sheet::Sheet;
use super::style::{DASHES, DOTS, FAINT, INK, OFF, PARTIAL, RULE, SHOWN_INK, UNMARKED};
use crate::svg::Area;
use carv::PERIOD_NS;
use carv_text::figures::{counted, grouped};
use carv_watch::{Kind, Row, TICKS};

/// Room for the marks below the bars, and the least width of the band where the window is.
const MARKS: f64 = 22.0;
const BAND: f64 = 3.0;
/// With more gaps than this they are not marked.
const MOST_GAPS: usize = 60;

/// The summary and where it is drawn.
struct Summary<'a> {
    scene: &'a Scene<'a>,
    left: f64,
    /// Width of a column, and heights of a row and of a bar that is the whole share.
    step: f64,
    row: f64,
    bar: f64,
}

/// Draws it from this height on, and answers where it ends.
pub fn draw(sheet: &mut Sheet, scene: &Scene<'_>, top: f64) -> f64 {
    let bar = if sheet.dense { 27.0 } else { 38.0 };
    let row = bar + MARKS;
    let summary = Summary {
        scene,
        left: sheet.left,
        step: sheet.column,
        row,
        bar,
    };
    let marks = (1..).zip(&scene.events);
    let marks = marks.map(|(number, event)| (summary.x_at(event.tick), number));
    let marks = marks.collect();
    let top = summary.heading(sheet, top) + 36.0 + events::height(&marks);
    let bottom = top + row * scene.drawn.len() as f64 - (row - bar) + 6.0;
    summary.band(sheet, top - 8.0, bottom);
    for (place, (drawn, row)) in scene.drawn().enumerate() {
        summary.row(sheet, drawn, row, top + summary.row * place as f64);
    }
    summary.gaps(sheet, top - 8.0, bottom);
    summary.axis(sheet, bottom);
    events::above(sheet, &marks, (top - 8.0, bottom));
    bottom + 42.0
}

impl Summary<'_> {
    fn heading(&self, sheet: &mut Sheet, top: f64) -> f64 {
        let periods = counted(self.scene.numbers.len() as u64, "period");
        let mut heading = format!("What each got of its share, in {periods}");
        if let many @ 2.. = self.scene.columns.periods {
            heading.push_str(&format!(", a bar for every {many}"));
        }
        sheet.heading(top, &heading, &[self.of_bars(), self.of_marks()])
    }

    /// What a bar looks like.
    fn of_bars(&self) -> Legend<'static> {
        let mut legend = vec![
            (Sign::Line(DASHES), "its whole share"),
            (Sign::Fill(OFF, "1"), "switched off"),
            (Sign::Fill(SHOWN_INK, "1"), "shown above"),
        ];
        if self.scene.columns.periods > 1 {
            let range =
                "solid up to the least, pale to the average, thin to the most of its periods";
            legend.insert(0, (Sign::Bar, range));
        }
        if self.scene.columns.any(Column::is_partial) {
            legend.push((Sign::PartialBar, PARTIAL));
        }
        legend
    }

    /// What the marks below a bar mean.
    fn of_marks(&self) -> Legend<'static> {
        let (held_back, missed) = match self.scene.columns.periods {
            1 => ("held back", "missed: wanted more than it got, had time"),
            _ => (
                "how often held back",
                "how often missed: wanted more than it got, had time",
            ),
        };
        vec![
            (Sign::None, "Below a bar:"),
            (Sign::UsedUp, "used its share up"),
            (Sign::HeldBack, held_back),
            (Sign::Missed, missed),
            (Sign::None, UNMARKED),
        ]
    }

    /// Where the period of this rank begins.
    fn x_of(&self, rank: usize) -> f64 {
        self.left + rank as f64 * self.step / self.scene.columns.periods as f64
    }

    /// Where the ms that ends at this tick ends; in time that wasn't seen, where that is left out.
    fn x_at(&self, tick: u64) -> f64 {
        let number = tick / TICKS;
        match self.scene.numbers.binary_search(&number) {
            Ok(rank) => {
                let period = self.x_of(rank + 1) - self.x_of(rank);
                self.x_of(rank) + period * (tick % TICKS + 1) as f64 / TICKS as f64
            }
            Err(rank) => self.x_of(rank),
        }
    }

    /// Marks the periods that are shown ms by ms.
    fn band(&self, sheet: &mut Sheet, top: f64, bottom: f64) {
        let window = &self.scene.window;
        let (left, right) = (self.x_of(window.start), self.x_of(window.end));
        let band = Area(left, top, f64::max(right - left, BAND), bottom - top);
        sheet.svg.rect(band, SHOWN_INK, "");
    }

    fn row(&self, sheet: &mut Sheet, drawn: &Drawn, row: &Row, top: f64) {
        sheet.label(top, row);
        let whole = match (row.kind, row.total.shares_ns) {
            (Kind::Budget, Some((_, high))) => high,
            (Kind::Budget, None) => 0,
            _ => PERIOD_NS,
        };
        let columns = self.scene.columns.of(drawn.index);
        let place = Place {
            left: self.left,
            step: self.step,
            top,
            height: self.bar,
            whole: whole.max(1) as f64,
        };
        let bars = Bars::new(columns, place, row.kind == Kind::Budget);
        bars.draw(&mut sheet.svg, drawn.colour);
        self.shares(sheet, columns, row.kind, whole, top);
        sheet.figures(top, &figures::of_all(row));
    }

    /// A line where the whole share is, of thread 0 and idle where all time is.
    fn shares(&self, sheet: &mut Sheet, columns: &[Column], kind: Kind, whole: u64, top: f64) {
        let share = |column: &Column| match kind {
            Kind::Budget => column.share_ns() / whole.max(1) as f64,
            _ => 1.0,
        };
        let x = |place: usize| self.left + place as f64 * self.step;
        let mut levels = Vec::new();
        let mut begin = 0;
        for run in columns.chunk_by(|a, b| (a.is_on(), share(a)) == (b.is_on(), share(b))) {
            let end = begin + run.len();
            if run[0].is_on() {
                let y = top + self.bar * (1.0 - share(&run[0]));
                levels.push((x(begin), x(end), y));
            }
            begin = end;
        }
        sheet.svg.levels(&levels, INK, DASHES);
        let (y, right) = (top + self.bar, self.x_of(self.scene.numbers.len()));
        sheet.svg.line((self.left, y), (right, y), RULE, "");
    }

    /// Marks where time without ticks is left out.
    fn gaps(&self, sheet: &mut Sheet, top: f64, bottom: f64) {
        let ranks = 0..self.scene.numbers.len();
        let gaps: Vec<usize> = ranks
            .filter(|rank| self.scene.is_after_gap(*rank))
            .collect();
        for rank in gaps.iter().filter(|_| gaps.len() <= MOST_GAPS) {
            let x = self.x_of(*rank);
            sheet.svg.line((x, top), (x, bottom), FAINT, DOTS);
        }
    }

    fn axis(&self, sheet: &mut Sheet, y: f64) {
        for tick in self.axis_ticks() {
            let text = format!("{} ms", grouped(tick));
            sheet.mark((self.x_at(tick), y), &text);
        }
    }

    /// The ticks that the axis names: round ones, or with gaps the first of some periods.
    fn axis_ticks(&self) -> Vec<u64> {
        let numbers = &self.scene.numbers;
        let (first, last) = (
            numbers[0] * TICKS,
            numbers[numbers.len() - 1] * TICKS + TICKS - 1,
        );
        let gaps = (0..numbers.len()).any(|rank| self.scene.is_after_gap(rank));
        let room = self.x_of(numbers.len()) - self.left;
        let text = (grouped(last).len() + 6) as f64 * 6.6;
        let most = f64::max(1.0, (room / text).floor()).min(7.0) as u64;
        if gaps {
            let step = numbers.len().div_ceil(most as usize);
            let numbers = numbers.iter().step_by(step);
            return numbers.map(|number| number * TICKS).collect();
        }
        let step = round_up((last - first) / most);
        let begin = first.div_ceil(step).saturating_mul(step);
        (begin..=last).step_by(step as usize).collect()
    }
}

/// The next of 1, 2, 5, 10, 20, 50 and so on that isn't below.
fn round_up(least: u64) -> u64 {
    let mut ten: u64 = 1;
    loop {
        for step in [1, 2, 5] {
            if step * ten >= least {
                return step * ten;
            }
        }
        ten *= 10;
    }
}

#[cfg(test)]
mod tests {
    use super::*;

    #[test]
    fn round_steps() {
        for (least, step) in [(0, 1), (1, 1), (3, 5), (429, 500), (1_844_674, 2_000_000)] {
            assert_eq!(round_up(least), step);
        }
    }
}
