//! A timeline read row by row.

use crate::doing::Doing;
use crate::part::{Lane, Left, Part};
use crate::period::{Line, PLACES, Period};
use crate::timeline::Timeline;
use crate::total::{Summing, Total};
use carv::{ObjectId, TICK_NS};
use std::collections::BTreeMap;

/// Whose row it is.
#[derive(Clone, Copy, Debug, PartialEq, Eq)]
pub enum Kind {
    /// Of a budget, or of several of one name.
    Budget,
    /// Of thread 0, which has none.
    NoBudget,
    /// Of idle.
    Idle,
}

/// A row, summed up.
#[derive(Clone, Debug)]
pub struct Row {
    /// Its label.
    pub name: String,
    /// Whose it is.
    pub kind: Kind,
    /// What it got in all periods.
    pub total: Total,
}

/// A timeline read row by row. First come the budgets, by their lowest id, then thread 0 if it ran,
/// and last idle.
#[derive(Debug)]
pub struct Rows<'a> {
    timeline: &'a Timeline,
    rows: Vec<Row>,
    row_of: BTreeMap<ObjectId, usize>,
}

impl<'a> Rows<'a> {
    /// Reads a timeline, a row for the budgets of one name.
    pub fn new(timeline: &'a Timeline) -> Self {
        Self::labelled(timeline, |budget| timeline.label(budget))
    }

    /// Reads a timeline, a row for each budget.
    pub fn of_each_budget(timeline: &'a Timeline) -> Self {
        Self::labelled(timeline, |budget| budget.0.to_string())
    }

    fn labelled(timeline: &'a Timeline, label: impl Fn(ObjectId) -> String) -> Self {
        let mut rows = Self {
            timeline,
            rows: Vec::new(),
            row_of: BTreeMap::new(),
        };
        rows.add_budgets(label);
        let first_ran = |period: &Period| (0..PLACES).any(|place| period.first_ran(place));
        if timeline.periods().values().any(first_ran) {
            rows.add("no budget".to_string(), Kind::NoBudget);
        }
        rows.add("idle".to_string(), Kind::Idle);
        rows.sum_up();
        rows
    }

    fn add_budgets(&mut self, label: impl Fn(ObjectId) -> String) {
        let mut labelled = BTreeMap::new();
        for budget in self.timeline.shown() {
            let label = label(budget);
            let row = *labelled
                .entry(label.clone())
                .or_insert_with(|| self.add(label, Kind::Budget));
            self.row_of.insert(budget, row);
        }
    }

    fn add(&mut self, name: String, kind: Kind) -> usize {
        let total = Total::default();
        self.rows.push(Row { name, kind, total });
        self.rows.len() - 1
    }

    fn sum_up(&mut self) {
        let mut sums: Vec<Summing> = self.rows.iter().map(|_| Summing::default()).collect();
        for number in self.periods() {
            for (row, part) in self.in_period(number) {
                sums[row].add(number, &part);
            }
        }
        for (row, sum) in self.rows.iter_mut().zip(sums) {
            row.total = sum.total();
        }
    }

    /// The rows.
    pub fn rows(&self) -> &[Row] {
        &self.rows
    }

    /// The row of the budgets of this name.
    pub fn budget(&self, name: &str) -> Option<&Row> {
        let mut rows = self.rows.iter();
        rows.find(|row| row.kind == Kind::Budget && row.name == name)
    }

    /// The row that this budget is in.
    pub fn row_of(&self, budget: ObjectId) -> Option<&Row> {
        self.row_of.get(&budget).map(|row| &self.rows[*row])
    }

    /// The row of idle.
    pub fn idle(&self) -> Option<&Row> {
        self.rows.last()
    }

    /// What each row did in a period, by the rows' indexes; a row that isn't there was off. Empty if
    /// no tick of the period was seen.
    pub fn in_period(&self, number: u64) -> BTreeMap<usize, Part> {
        let mut parts = BTreeMap::new();
        let Some(period) = self.timeline.periods().get(&number) else {
            return parts;
        };
        for line in period.lines() {
            if let Some(row) = self.row_of.get(&line.budget) {
                let part = parts.entry(*row).or_insert_with(|| Part::off(period));
                part.add(&self.lane(number, line, period), period);
            }
        }
        self.add_others(period, &mut parts);
        parts
    }

    fn lane(&self, number: u64, line: &Line, period: &Period) -> Lane {
        Lane {
            doings: line.doings,
            next: self.timeline.behind(number, line.budget),
            share_ns: line.share_ns(),
            left: period.left_ns(line.budget).map_or(Left::Unknown, Left::Ns),
            without_account_ns: None,
        }
    }

    /// Adds thread 0 and idle: what runs that no budget runs.
    fn add_others(&self, period: &Period, parts: &mut BTreeMap<usize, Part>) {
        let budget_ran = |place| {
            let mut lines = period.lines().iter();
            lines.any(|line| line.doings.get(place) == Doing::Runs)
        };
        for (index, row) in self.rows.iter().enumerate().rev().take(2) {
            let runs = |place| match row.kind {
                Kind::Budget => None,
                Kind::NoBudget => Some(period.first_ran(place)),
                Kind::Idle => Some(!period.first_ran(place) && !budget_ran(place)),
            };
            for place in 0..PLACES {
                if let Some(runs) = runs(place) {
                    let part = parts.entry(index).or_insert_with(|| Part::off(period));
                    let doing = if runs { Doing::Runs } else { Doing::Sleeps };
                    part.note(place, doing, TICK_NS);
                }
            }
        }
    }

    /// The numbers of the periods of which a tick was seen, rising.
    pub fn periods(&self) -> impl Iterator<Item = u64> + use<'a> {
        self.timeline.periods().keys().copied()
    }
}
