//! All periods in at most 300 columns: what each row that is drawn got in each.

use super::scene::Drawn;
use carv_watch::{Outcome, Part, Rows};
use std::collections::BTreeMap;

/// The most columns.
const MOST: usize = 300;

/// A row in the periods of a column.
#[derive(Clone, Copy, Debug, Default)]
pub struct Column {
    periods: u64,
    /// Sums over the periods in which it was live.
    got_ns: u64,
    share_ns: u64,
    periods_on: u64,
    periods_held_back: u64,
    periods_used_up: u64,
    periods_missed: u64,
    periods_partial: u64,
    /// The least of those of its periods that are whole, and the most.
    least_ns: Option<u64>,
    most_ns: u64,
}

impl Column {
    fn add(&mut self, part: &Part) {
        if part.ms_on() == 0 {
            return;
        }
        self.got_ns += part.got_ns;
        self.share_ns += part.share_ns;
        self.periods_on += 1;
        self.periods_held_back += u64::from(part.held_back);
        self.periods_used_up += u64::from(is_used_up(part));
        self.periods_missed += u64::from(part.outcome == Some(Outcome::Missed));
        self.periods_partial += u64::from(!part.is_whole());
        self.most_ns = self.most_ns.max(part.got_ns);
        if part.is_whole() {
            let least_ns = self.least_ns.unwrap_or(part.got_ns);
            self.least_ns = Some(least_ns.min(part.got_ns));
        }
    }

    pub fn is_on(&self) -> bool {
        self.periods_on > 0
    }

    fn per_period(&self, sum: u64) -> f64 {
        sum as f64 / self.periods_on.max(1) as f64
    }

    /// What it got in a period, on average.
    pub fn got_ns(&self) -> f64 {
        self.per_period(self.got_ns)
    }

    /// The least that it got in a period that is whole, but not more than the average; that, if
    /// there is none.
    pub fn least_ns(&self) -> f64 {
        let average = self.got_ns();
        let least = self.least_ns.map_or(average, |least| least as f64);
        least.min(average)
    }

    /// The most that it got in a period.
    pub fn most_ns(&self) -> f64 {
        self.most_ns as f64
    }

    /// Its share in a period, on average.
    pub fn share_ns(&self) -> f64 {
        self.per_period(self.share_ns)
    }

    /// The part of its periods in which it was held back.
    pub fn held_back(&self) -> f64 {
        self.per_period(self.periods_held_back)
    }

    /// The part of its periods that it missed.
    pub fn missed(&self) -> f64 {
        self.per_period(self.periods_missed)
    }

    /// Did it use its share up in one of its periods?
    pub fn is_used_up(&self) -> bool {
        self.periods_used_up > 0
    }

    /// Is one of its periods partial, or was it off in one?
    pub fn is_partial(&self) -> bool {
        self.periods_partial > 0 || (1..self.periods).contains(&self.periods_on)
    }
}

/// Did it use its share up, or was it held back?
pub fn is_used_up(part: &Part) -> bool {
    part.held_back || part.outcome == Some(Outcome::UsedUp)
}

/// The columns.
pub struct Columns {
    /// How many periods a column has; the last may have fewer.
    pub periods: usize,
    pub count: usize,
    /// By the row's index among all.
    rows: BTreeMap<usize, Vec<Column>>,
}

impl Columns {
    /// The columns of the rows that are drawn, of the periods of these numbers.
    pub fn new(rows: &Rows<'_>, drawn: &[Drawn], numbers: &[u64]) -> Self {
        let periods = numbers.len().div_ceil(MOST).max(1);
        let count = numbers.len().div_ceil(periods);
        let blank = |drawn: &Drawn| (drawn.index, vec![Column::default(); count]);
        let mut columns: BTreeMap<usize, Vec<Column>> = drawn.iter().map(blank).collect();
        for (rank, number) in numbers.iter().enumerate() {
            let parts = rows.in_period(*number);
            for (index, row) in &mut columns {
                let column = &mut row[rank / periods];
                column.periods += 1;
                if let Some(part) = parts.get(index) {
                    column.add(part);
                }
            }
        }
        Self {
            periods,
            count,
            rows: columns,
        }
    }

    pub fn of(&self, index: usize) -> &[Column] {
        self.rows.get(&index).map_or(&[], Vec::as_slice)
    }

    /// Does some column have this?
    pub fn any(&self, has: impl Fn(&Column) -> bool) -> bool {
        self.rows.values().flatten().any(has)
    }
}

#[cfg(test)]
mod tests {
    use super::*;
    use carv_watch::{Doing, PLACES};

    fn part(got_ns: u64, seen: usize, outcome: Option<Outcome>) -> Part {
        let doing = |place| (place < seen).then_some(Doing::Waits);
        Part {
            doing: std::array::from_fn(doing),
            got_ns,
            share_ns: 4,
            outcome,
            ..Part::default()
        }
    }

    fn column(parts: &[Part]) -> Column {
        let mut column = Column {
            periods: parts.len() as u64,
            ..Column::default()
        };
        parts.iter().for_each(|part| column.add(part));
        column
    }

    /// One bad period of several shows.
    #[test]
    fn least_average_and_most() {
        let good = part(4, PLACES, Some(Outcome::UsedUp));
        let bad = part(1, PLACES, Some(Outcome::Missed));
        let column = column(&[good, bad, good]);
        assert_eq!(
            (column.least_ns(), column.got_ns(), column.most_ns()),
            (1.0, 3.0, 4.0)
        );
        assert_eq!((column.missed(), column.is_used_up()), (1.0 / 3.0, true));
        assert!(!column.is_partial());
    }

    /// What was got in a part of a period is no least.
    #[test]
    fn a_partial_period() {
        let (first, next) = (part(0, 3, None), part(4, PLACES, None));
        let both = column(&[first, next, next, next]);
        assert_eq!((both.least_ns(), both.got_ns()), (3.0, 3.0));
        assert!(both.is_partial());
        let alone = column(&[part(2, 3, None)]);
        assert_eq!((alone.least_ns(), alone.most_ns()), (2.0, 2.0));
        let (off, on) = (part(0, 0, None), part(4, PLACES, None));
        assert!(!column(&[off]).is_on() && !column(&[off]).is_partial());
        assert!(column(&[on, off]).is_partial() && !column(&[on, on]).is_partial());
        assert_eq!(column(&[on, off]).got_ns(), 4.0);
    }
}
