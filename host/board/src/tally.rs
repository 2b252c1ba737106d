//! Counts calls by name and by number.

use crate::pair::Pair;
use carv_compare::board::call::{Call, Op};
use carv_compare::board::numbers::{self, NUMBERS};
use carv_compare::board::removal::{Clock, Removal, What};
use carv_compare::board::totals::Whose;
use carv_compare::board::{BUDGET, IDLE};
use carv_compare::state::entry;
use carv_oracle::Snapshot;
use std::collections::BTreeMap;
use std::fmt;

/// How often each call gave each number, how far the boards went, what removals met, and whose totals
/// were read.
#[derive(Clone, Debug, Default, PartialEq, Eq)]
pub struct Tally {
    calls: [[u64; NUMBERS]; Op::ALL.len()],
    reached: Reached,
    removals: BTreeMap<Removal, u64>,
    totals: BTreeMap<Whose, u64>,
    /// On the current board.
    kills: u64,
}

/// How far boards went.
#[derive(Clone, Copy, Debug, Default, PartialEq, Eq)]
pub struct Reached {
    /// Most objects at a time.
    pub objects: usize,
    /// Most levels of budgets below the root.
    pub levels: usize,
    /// Most threads at a time.
    pub threads: usize,
    /// Most threads in the ready queue.
    pub queue: usize,
    /// Plannings that ended with idle.
    pub plans_to_idle: u64,
    /// Most kills on a board.
    pub kills: u64,
}

/// Removals that a report counts together: their name, and which they are.
pub type Removals = (&'static str, fn(What) -> bool);

/// The removals of budgets, which renew a payer that is due, and those that renew nobody.
pub const REMOVALS: [Removals; 3] = [
    ("of a budget", |what| what == What::Kind(BUDGET)),
    (
        "of another kind",
        |what| matches!(what, What::Kind(kind) if kind != BUDGET),
    ),
    ("refused with 9, 10", |what| {
        matches!(what, What::Root | What::Payer)
    }),
];

/// The totals that a report counts, with their names.
pub const TOTALS: [(&str, Whose); Whose::ALL.len()] = [
    ("of the root", Whose::Root),
    ("over three levels or more", Whose::Deep),
    ("over two levels", Whose::Inner),
    ("of a leaf", Whose::Leaf),
    ("of another kind", Whose::NoBudget),
    ("of a missing id", Whose::Missing),
];

impl Tally {
    /// Counts a call that gave this number, and was the last of this pair, which lets no number pass
    /// that calls don't answer.
    pub fn count(&mut self, call: Call, number: u64, pair: &Pair) {
        let after = pair.state();
        if let Some(removal) = pair.removal() {
            *self.removals.entry(removal).or_default() += 1;
        }
        if let Some(whose) = pair.totals() {
            *self.totals.entry(whose).or_default() += 1;
        }
        let reached = &mut self.reached;
        reached.objects = reached.objects.max(after.entries.len());
        reached.threads = reached.threads.max(after.threads.len());
        reached.queue = reached.queue.max(after.ready.len());
        match call {
            _ if number > 0 => {}
            Call::Open { .. } => self.kills = 0,
            Call::Kill { .. } => self.kills += 1,
            Call::Plan { .. } => reached.plans_to_idle += u64::from(after.current == IDLE),
            Call::CreateBudget { parent, .. } => {
                reached.levels = reached.levels.max(level(after, parent) + 1);
            }
            _ => {}
        }
        reached.kills = reached.kills.max(self.kills);
        self.calls[call.op() as usize - 1][number as usize] += 1;
    }

    /// All calls.
    pub fn total(&self) -> u64 {
        self.calls.as_flattened().iter().sum()
    }

    /// The calls of this kind that gave this number.
    pub fn of(&self, op: Op, number: u64) -> u64 {
        self.calls[op as usize - 1][number as usize]
    }

    /// The calls of this kind that were refused.
    pub fn refused(&self, op: Op) -> u64 {
        self.calls[op as usize - 1][1..].iter().sum()
    }

    /// All calls that gave this number.
    pub fn with(&self, number: u64) -> u64 {
        self.calls.iter().map(|of| of[number as usize]).sum()
    }

    /// The numbers that came, with how often; of one call or of all.
    pub fn numbers(&self, op: Option<Op>) -> impl Iterator<Item = (u64, u64)> {
        let count = move |number| op.map_or_else(|| self.with(number), |op| self.of(op, number));
        let all = (0..NUMBERS as u64).map(move |number| (number, count(number)));
        all.filter(|(_, count)| *count > 0)
    }

    /// Calls with a number that they can answer and never did.
    pub fn missing(&self) -> impl Iterator<Item = (Op, u64)> {
        numbers::all().filter(|(op, number)| self.of(*op, *number) == 0)
    }

    /// How far the boards went.
    pub fn reached(&self) -> Reached {
        self.reached
    }

    /// The removals that met just this.
    pub fn removals(&self, removal: Removal) -> u64 {
        self.removals.get(&removal).copied().unwrap_or(0)
    }

    /// The removals of these objects, by when their payers saw them.
    pub fn removals_by_clock(&self, is_meant: impl Fn(What) -> bool) -> [u64; Clock::ALL.len()] {
        Clock::ALL.map(|clock| {
            let meant = |removal: &Removal| removal.clock == clock && is_meant(removal.what);
            let found = self.removals.iter().filter(|(removal, _)| meant(removal));
            found.map(|(_, count)| count).sum()
        })
    }

    /// How often these totals were read.
    pub fn totals(&self, whose: Whose) -> u64 {
        self.totals.get(&whose).copied().unwrap_or(0)
    }
}

/// How far a budget is from the root.
fn level(state: &Snapshot, mut id: u64) -> usize {
    let mut level = 0;
    while let Some(entry) = entry(state, id).filter(|entry| entry.payer < id) {
        id = entry.payer;
        level += 1;
    }
    level
}

impl fmt::Display for Tally {
    fn fmt(&self, f: &mut fmt::Formatter<'_>) -> fmt::Result {
        let ops = Op::ALL.iter().map(|op| (op.name(), Some(*op)));
        for (name, op) in ops.chain([("all", None)]) {
            let all: u64 = self.numbers(op).map(|(_, count)| count).sum();
            let numbers = self.numbers(op).map(|(n, count)| format!("{n}: {count}"));
            let numbers: Vec<String> = numbers.collect();
            writeln!(f, "{name:18}{all:>12}  {}", numbers.join(", "))?;
        }
        let reached = self.reached;
        writeln!(f, "most objects at a time: {}", reached.objects)?;
        writeln!(f, "levels below the root: {}", reached.levels)?;
        writeln!(f, "most threads at a time: {}", reached.threads)?;
        writeln!(f, "longest queue: {}", reached.queue)?;
        writeln!(f, "plannings that end with idle: {}", reached.plans_to_idle)?;
        write!(f, "most kills on a board: {}", reached.kills)?;
        for (name, is_meant) in REMOVALS {
            let [due, not_due, fallen] = self.removals_by_clock(is_meant);
            write!(
                f,
                "\nremovals {name}: {due} with the payer due, {not_due} not due, {fallen} with a clock that fell"
            )?;
        }
        for (name, whose) in TOTALS {
            write!(f, "\ntotals {name}: {}", self.totals(whose))?;
        }
        Ok(())
    }
}
