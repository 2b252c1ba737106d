//! What was seen of a board, tick by tick.

use crate::TICKS;
use crate::doing::Doing;
use crate::glimpse::Glimpse;
use crate::period::{PLACES, Period};
use carv::{Board, ObjectId, ThreadId};
use carv_text::figures::cut;
use std::collections::{BTreeMap, BTreeSet};
use std::ops::RangeInclusive;

/// The most events that are kept; later events are counted.
pub const MOST_EVENTS: usize = 10_000;
/// The most characters of an event.
const EVENT_WIDTH: usize = 300;

/// What was seen of a board, tick by tick.
///
/// It keeps 128 bytes for each period of which a tick was seen, 32 for each budget in it, and 32 for
/// each thread.
#[derive(Debug, Default)]
pub struct Timeline {
    names: BTreeMap<ObjectId, String>,
    periods: BTreeMap<u64, Period>,
    /// Budgets that had a thread at some tick: those with a row.
    shown: BTreeSet<ObjectId>,
    events: Vec<Event>,
    events_left_out: usize,
    repeats: u64,
    /// The tick that came last.
    last: Option<u64>,
    /// What was seen behind it.
    end: Option<Glimpse>,
}

/// Something that happened.
#[derive(Clone, Debug)]
pub struct Event {
    /// When, in ms: 0 before the first tick.
    pub tick: u64,
    /// What, in a line.
    pub text: String,
}

impl Timeline {
    /// Nothing seen so far.
    pub fn new() -> Self {
        Self::default()
    }

    /// Names a budget, at any time; its row is labelled with it. Budgets of one name share a row.
    pub fn name(&mut self, budget: ObjectId, name: &str) {
        self.names.insert(budget, name.to_string());
    }

    /// What is to be seen before tick `n`, which [`tick`](Self::tick) takes if it is accepted.
    pub fn before(&self, n: u64, board: &Board) -> Glimpse {
        Glimpse::before(n, board)
    }

    /// An accepted tick: what was seen before the call, and the board after it.
    ///
    /// A tick that was seen before is noted as it is now.
    pub fn tick(&mut self, before: Glimpse, after: &Board) {
        let mut glimpse = before;
        glimpse.add_after(after);
        let n = glimpse.tick;
        let with_thread = glimpse.budgets.iter().filter(|seen| seen.has_thread);
        self.shown.extend(with_thread.map(|seen| seen.budget));
        let (number, place) = place_of(n);
        let period = self.periods.entry(number).or_default();
        self.repeats += u64::from(period.is_seen(place));
        period.note(place, &glimpse);
        (self.last, self.end) = (Some(n), None);
    }

    /// The board after the last call: it tells who had something to do when all ended.
    pub fn end(&mut self, board: &Board) {
        let next = self.last.and_then(|last| last.checked_add(1));
        self.end = next.map(|next| Glimpse::before(next, board));
    }

    /// Something that happened at tick `n`, 0 before the first: the first line of the text is kept.
    pub fn event(&mut self, n: u64, text: String) {
        if self.events.len() < MOST_EVENTS {
            let text = cut(text.lines().next().unwrap_or_default(), EVENT_WIDTH);
            self.events.push(Event { tick: n, text });
        } else {
            self.events_left_out += 1;
        }
    }

    /// The first and the last tick by number; none if no tick was seen.
    pub fn ticks(&self) -> Option<RangeInclusive<u64>> {
        let places = 0..PLACES;
        let (first, period) = self.periods.first_key_value()?;
        let begin = places.clone().find(|place| period.is_seen(*place))?;
        let (last, period) = self.periods.last_key_value()?;
        let end = places.rev().find(|place| period.is_seen(*place))?;
        Some(first * TICKS + begin as u64..=last * TICKS + end as u64)
    }

    /// What a budget did in the ms that tick `n` ended; none if that tick wasn't seen.
    pub fn doing(&self, budget: ObjectId, n: u64) -> Option<Doing> {
        let (period, place) = self.seen(n)?;
        Some(period.doing(budget, place))
    }

    /// What a thread did in the ms that tick `n` ended; none if that tick wasn't seen.
    pub fn thread_doing(&self, thread: ThreadId, n: u64) -> Option<Doing> {
        let (period, place) = self.seen(n)?;
        Some(period.thread_doing(thread, place))
    }

    /// The period of a tick that was seen, and its place in it.
    fn seen(&self, n: u64) -> Option<(&Period, usize)> {
        let (number, place) = place_of(n);
        let period = self.periods.get(&number)?;
        period.is_seen(place).then_some((period, place))
    }

    /// What a budget does in the ms behind a period; none if that wasn't seen.
    pub(crate) fn behind(&self, number: u64, budget: ObjectId) -> Option<Doing> {
        let next = next_tick(number)?;
        self.doing(budget, next).or_else(|| {
            let end = self.end.as_ref().filter(|end| end.tick == next)?;
            let mut budgets = end.budgets.iter();
            let found = budgets.find(|seen| seen.budget == budget);
            Some(found.map_or(Doing::Off, |seen| seen.doing))
        })
    }

    /// What a thread does in the ms behind a period; none if that wasn't seen.
    pub(crate) fn thread_behind(&self, number: u64, thread: ThreadId) -> Option<Doing> {
        let next = next_tick(number)?;
        self.thread_doing(thread, next).or_else(|| {
            let end = self.end.as_ref().filter(|end| end.tick == next)?;
            let mut threads = end.threads.iter();
            let found = threads.find(|seen| seen.thread == thread);
            Some(found.map_or(Doing::Off, |seen| seen.doing))
        })
    }

    /// How many ticks came with a number that was seen before.
    pub fn repeats(&self) -> u64 {
        self.repeats
    }

    /// The label of a budget's row: its name, or its number.
    pub fn label(&self, budget: ObjectId) -> String {
        let name = self.names.get(&budget).cloned();
        name.unwrap_or_else(|| format!("budget {}", budget.0))
    }

    /// The budgets that have a row, by rising id.
    pub(crate) fn shown(&self) -> impl Iterator<Item = ObjectId> {
        self.shown.iter().copied()
    }

    /// The periods of which a tick was seen, by rising number.
    pub(crate) fn periods(&self) -> &BTreeMap<u64, Period> {
        &self.periods
    }

    /// The events that are kept, in the order in which they came, and how many are not.
    pub fn events(&self) -> (&[Event], usize) {
        (&self.events, self.events_left_out)
    }
}

/// The period of a tick, and its place in it.
fn place_of(n: u64) -> (u64, usize) {
    (n / TICKS, (n % TICKS) as usize)
}

/// The first tick behind a period.
fn next_tick(number: u64) -> Option<u64> {
    number.checked_add(1)?.checked_mul(TICKS)
}
