//! What a picture shows: which rows in which colours, which periods, which events.

use super::SHOWN;
use super::columns::Columns;
use crate::palette::{COLOURS, IDLE, NO_BUDGET};
use carv_watch::{Event, Kind, Row, Rows, TICKS, Timeline};
use std::ops::Range;

/// The most rows that are drawn, and events that are listed.
const MOST_ROWS: usize = COLOURS.len();
const MOST_EVENTS: usize = 20;

/// A row that is drawn.
pub struct Drawn {
    /// Its index among all rows.
    pub index: usize,
    pub colour: &'static str,
}

/// What a picture shows.
pub struct Scene<'a> {
    pub rows: Rows<'a>,
    pub drawn: Vec<Drawn>,
    /// The numbers of all periods seen, rising. A period's place here is its rank.
    pub numbers: Vec<u64>,
    /// The ranks of the periods shown ms by ms.
    pub window: Range<usize>,
    /// All periods as columns.
    pub columns: Columns,
    /// By rising tick.
    pub events: Vec<Event>,
    /// How many events are not listed.
    pub more_events: usize,
    /// How many ticks came again.
    pub repeats: u64,
    first_tick: Option<u64>,
}

impl<'a> Scene<'a> {
    pub fn new(timeline: &'a Timeline, from: Option<u64>) -> Self {
        let rows = Rows::new(timeline);
        let numbers: Vec<u64> = rows.periods().collect();
        let first = from.unwrap_or(0) / TICKS;
        let first = numbers.partition_point(|number| *number < first);
        let first = first.min(numbers.len().saturating_sub(1));
        let end = numbers.len().min(first + SHOWN as usize);
        let (events, left_out) = timeline.events();
        let drawn = drawn(rows.rows());
        let mut scene = Self {
            columns: Columns::new(&rows, &drawn, &numbers),
            drawn,
            rows,
            numbers,
            window: first..end,
            events: events.to_vec(),
            more_events: left_out,
            repeats: timeline.repeats(),
            first_tick: timeline.ticks().map(|ticks| *ticks.start()),
        };
        scene.choose_events();
        scene
    }

    /// Keeps the first events, before others those in the window.
    fn choose_events(&mut self) {
        let mut events = std::mem::take(&mut self.events);
        events.sort_by_key(|event| (self.ms_in_window(event.tick).is_none(), event.tick));
        self.more_events += events.len().saturating_sub(MOST_EVENTS);
        events.truncate(MOST_EVENTS);
        events.sort_by_key(|event| event.tick);
        self.events = events;
    }

    /// How many ms behind the window's left edge a tick is: a tick ends its ms. What was before the
    /// first tick stands at the edge.
    pub fn ms_in_window(&self, tick: u64) -> Option<usize> {
        if tick == 0 && self.window.start == 0 && self.numbers.first() > Some(&0) {
            return Some(0);
        }
        let rank = self.numbers.binary_search(&(tick / TICKS)).ok()?;
        let ms = (rank.checked_sub(self.window.start)?) * TICKS as usize;
        let ms = ms + (tick % TICKS) as usize + 1;
        self.window.contains(&rank).then_some(ms)
    }

    /// Is something of this tick from before the first?
    pub fn is_before_all(&self, tick: u64) -> bool {
        tick == 0 && self.first_tick > Some(0)
    }

    /// The periods in the window: their places in it and numbers.
    pub fn shown(&self) -> impl Iterator<Item = (usize, u64)> {
        self.numbers[self.window.clone()]
            .iter()
            .copied()
            .enumerate()
    }

    /// Is there time without ticks between the period of this rank and the one before?
    pub fn is_after_gap(&self, rank: usize) -> bool {
        rank > 0 && self.numbers[rank] - self.numbers[rank - 1] > 1
    }

    /// The rows that are drawn.
    pub fn drawn(&self) -> impl Iterator<Item = (&Drawn, &Row)> {
        let row = |drawn: &Drawn| &self.rows.rows()[drawn.index];
        self.drawn.iter().map(move |drawn| (drawn, row(drawn)))
    }

    /// The rows that are not drawn.
    pub fn rest(&self) -> Vec<&Row> {
        let is_drawn = |index: &usize| self.drawn.iter().any(|drawn| drawn.index == *index);
        let rows = self.rows.rows().iter().enumerate();
        let rest = rows.filter(|(index, _)| !is_drawn(index));
        rest.map(|(_, row)| row).collect()
    }

    /// Is a budget drawn as it missed a period, before one that missed none?
    pub fn is_by_missing(&self) -> bool {
        let has_missed = |row: &Row| row.total.missed.is_some();
        let drawn = self.drawn().map(|(_, row)| row);
        let mut drawn = drawn.filter(|row| row.kind == Kind::Budget);
        drawn.any(has_missed) && !self.rest().into_iter().all(has_missed)
    }
}

/// The rows to be drawn: thread 0 and idle, and of the budgets first those that missed a period, then
/// those that ran most.
fn drawn(rows: &[Row]) -> Vec<Drawn> {
    let is_budget = |index: &usize| rows[*index].kind == Kind::Budget;
    let (mut budgets, others): (Vec<usize>, Vec<usize>) = (0..rows.len()).partition(is_budget);
    budgets.sort_by_key(|index| {
        let total = &rows[*index].total;
        std::cmp::Reverse((total.missed.is_some(), total.got_ns))
    });
    budgets.truncate(MOST_ROWS - others.len());
    budgets.sort();
    let indexes = budgets.into_iter().chain(others);
    let coloured = |(index, colour)| Drawn { index, colour };
    let colours = COLOURS.iter().copied();
    indexes
        .zip(colours)
        .map(|(index, colour)| match rows[index].kind {
            Kind::Budget => (index, colour),
            Kind::NoBudget => (index, NO_BUDGET),
            Kind::Idle => (index, IDLE),
        })
        .map(coloured)
        .collect()
}
