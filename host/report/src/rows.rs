//! The rows of a report.

use crate::refusals::Refusals;
use carv::{ObjectId, ThreadId};
use carv_layout::area::Totals;
use carv_ledger::{Fall, Overspent};
use carv_watch::Total;
use std::ops::RangeInclusive;

/// What ticks show of a service, a budget or a thread.
#[derive(Clone, Copy, Debug, PartialEq, Eq)]
pub struct Figures {
    /// Sums over all periods.
    pub total: Total,
    /// The first period that it missed.
    pub first_missed: Option<MissedAt>,
    /// The first of those in which it missed most.
    pub worst_missed: Option<MissedAt>,
}

/// A period that was missed.
#[derive(Clone, Copy, Debug, PartialEq, Eq)]
pub struct MissedAt {
    /// When it begins.
    pub start_ms: u64,
    /// The share in it.
    pub share_ns: u64,
    /// What was got.
    pub got_ns: u64,
    /// What was missed.
    pub missed_ns: u64,
}

/// The most that a budget and all below it spent in a period.
#[derive(Clone, Copy, Debug, PartialEq, Eq)]
pub struct Spent {
    /// How much; 0 if it never spent anything.
    pub most_ns: u128,
    /// When the first period began in which it was so much.
    pub start_ns: Option<u128>,
}

/// Memory in bytes.
#[derive(Clone, Copy, Debug, Default, PartialEq, Eq)]
pub struct Memory {
    /// What may be used and reserved.
    pub limit: u64,
    /// The most that was used.
    pub most: u64,
    /// The most that was used at once with all budgets below.
    pub most_below: u64,
}

/// The budgets of one name that had a thread at some tick: one that is switched off and on again has a
/// new budget each time.
#[derive(Clone, Debug)]
pub struct ServiceRow {
    /// Its name; "budget N" if it has none.
    pub name: String,
    /// Its budgets, by rising id. Those without a thread are among them.
    pub budgets: Vec<ObjectId>,
    /// What ticks show of all of them together.
    pub figures: Figures,
    /// The most that one of them spent, with all below it; none if the past of the board isn't known.
    pub spent: Option<Spent>,
    /// Of each figure the highest of one of them.
    pub memory: Memory,
    /// How often they were renewed.
    pub renewals: u64,
    /// Refused calls that name one of them.
    pub refusals: Refusals,
}

/// A budget that was ever live.
#[derive(Clone, Debug)]
pub struct BudgetRow {
    /// Its id.
    pub id: ObjectId,
    /// Its name, if it has one.
    pub name: Option<String>,
    /// The budget that it was carved out of; the root's is the root.
    pub parent: ObjectId,
    /// Is it live at the end?
    pub is_live: bool,
    /// Its CPU allowance: its share and what is reserved below it.
    pub cpu_ns: u64,
    /// Its lowest and its highest share in a period; none without a tick.
    pub shares_ns: Option<(u64, u64)>,
    /// What ticks show of it; none if it never had a thread.
    pub figures: Option<Figures>,
    /// The most that it spent, with all below it; none if the past of the board isn't known.
    pub spent: Option<Spent>,
    /// Its memory.
    pub memory: Memory,
    /// Its totals at the end, with all below it, if it is live.
    pub totals: Option<Totals>,
    /// How often its period start moved.
    pub renewals: u64,
    /// Refused calls that name it, or an object that it pays for.
    pub refusals: Refusals,
}

/// A thread that there ever was, idle left out.
#[derive(Clone, Debug)]
pub struct ThreadRow {
    /// Its id.
    pub id: ThreadId,
    /// Its budget as last seen; thread 0 has none.
    pub budget: Option<ObjectId>,
    /// What its budget is called.
    pub budget_name: Option<String>,
    /// What ticks show of it; none if there was no tick while it was there. Its share is that of its
    /// budget, also if other threads have it.
    pub figures: Option<Figures>,
    /// Refused calls that name it.
    pub refusals: Refusals,
}

/// The board as a whole.
#[derive(Clone, Debug)]
pub struct BoardRow {
    /// Where the opening stands that the report begins with, as the list counts; none if the board was
    /// open before, or is not open.
    pub opened: Option<u64>,
    /// How many openings were accepted.
    pub openings: u64,
    /// Calls that were accepted since that opening, with it.
    pub accepted: u64,
    /// The first and the last tick by number; none if no tick was accepted.
    pub ticks: Option<RangeInclusive<u64>>,
    /// How many ticks were seen, those that came again left out.
    pub ticks_seen: u64,
    /// How many are missing between the first and the last.
    pub ticks_missing: u64,
    /// In how many gaps they are missing.
    pub gaps: u64,
    /// How many ticks came with a number that was seen before.
    pub ticks_repeated: u64,
    /// Periods of which a tick was seen.
    pub periods: u64,
    /// How many of these not all ten ticks were seen of.
    pub periods_partial: u64,
    /// How long idle ran.
    pub idle: Total,
    /// Where the clock first fell among calls that were accepted or refused with 12.
    pub clock_fell: Option<Fall>,
    /// Where it first fell among all calls.
    pub any_clock_fell: Option<Fall>,
    /// Is it known what was spent? Not so of a board that was open before.
    pub knows_spent: bool,
    /// The first budget and period above its allowance, with all below it.
    pub overspent: Option<Overspent>,
    /// All refusals, each once.
    pub refusals: Refusals,
    /// Those of calls that name nobody live, or idle alone.
    pub refusals_of_nobody: Refusals,
}
