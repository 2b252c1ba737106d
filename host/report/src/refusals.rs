//! Refusals by number, and whom a refused call names.

use crate::accounts::Accounts;
use carv::{ObjectId, Refusal, ThreadId};
use carv_layout::area::{OBJECTS, ObjectField, Part, THREADS, word};
use std::collections::BTreeMap;

/// How often calls were refused, by document 01's number.
#[derive(Clone, Debug, Default, PartialEq, Eq)]
pub struct Refusals(BTreeMap<u64, u64>);

impl Refusals {
    /// Counts a refusal.
    pub fn note(&mut self, refusal: Refusal) {
        *self.0.entry(refusal.number()).or_default() += 1;
    }

    /// Adds others to these.
    pub fn add(&mut self, others: &Self) {
        for (number, count) in &others.0 {
            *self.0.entry(*number).or_default() += count;
        }
    }

    /// How many there were.
    pub fn total(&self) -> u64 {
        self.0.values().sum()
    }

    /// How many there were with this number.
    pub fn with(&self, number: u64) -> u64 {
        self.0.get(&number).copied().unwrap_or(0)
    }

    /// Refusals with how often there were, by rising number.
    pub fn iter(&self) -> impl Iterator<Item = (Refusal, u64)> {
        let counts = self.0.iter();
        counts.map(|(number, count)| (Refusal::from_number(*number), *count))
    }
}

/// Refusals by whom the refused calls name.
#[derive(Clone, Debug, Default)]
pub struct Refused {
    /// All of them, each once.
    pub all: Refusals,
    /// Those of calls that name nobody live, or idle alone.
    pub nobody: Refusals,
    /// Those of calls that name this budget, or something that it pays for.
    pub budgets: BTreeMap<ObjectId, Refusals>,
    /// Those of calls that name this thread.
    pub threads: BTreeMap<ThreadId, Refusals>,
}

impl Refused {
    /// Counts a refused call. The board is as before it, but for renewals.
    pub fn note(
        &mut self,
        refusal: Refusal,
        (name, arguments): (&str, &[u64]),
        area: &[u8],
        accounts: &Accounts,
    ) {
        self.all.note(refusal);
        let (object, thread) = named(name, arguments);
        let budget = object.and_then(|id| budget_of(id, area, accounts));
        let thread = thread.filter(|id| *id != ThreadId::IDLE && has_row(&THREADS, id.0, area));
        if let Some(budget) = budget {
            self.budgets.entry(budget).or_default().note(refusal);
        }
        if let Some(thread) = thread {
            self.threads.entry(thread).or_default().note(refusal);
        }
        if budget.is_none() && thread.is_none() {
            self.nobody.note(refusal);
        }
    }
}

/// The object and the thread that a call names.
fn named(name: &str, arguments: &[u64]) -> (Option<u64>, Option<ThreadId>) {
    let argument = |place: usize| arguments.get(place).copied();
    let thread = || argument(0).map(ThreadId);
    match name {
        "create" | "insert" => (argument(1), None),
        "create_budget" | "charge_more" | "uncharge" | "remove" | "refill" | "charge_cpu"
        | "pays_for_anything" | "account" | "charge_of" | "totals" => (argument(0), None),
        "create_user_thread" => (argument(1), thread()),
        "start" | "wake" | "is_blocked_on" | "kill" | "read_thread" | "exit_of" => (None, thread()),
        _ => (None, None),
    }
}

/// The live budget of this id, or the one that pays for the object of this id.
fn budget_of(id: u64, area: &[u8], accounts: &Accounts) -> Option<ObjectId> {
    if accounts.is_live(ObjectId(id)) {
        return Some(ObjectId(id));
    }
    let row = row(&OBJECTS, id, area)?;
    let payer = word(area, OBJECTS.row(row) + ObjectField::Payer as usize);
    Some(ObjectId(payer))
}

fn has_row(part: &Part, id: u64, area: &[u8]) -> bool {
    row(part, id, area).is_some()
}

/// The place of an id in a table of the board, whose rows stand by rising id.
fn row(part: &Part, id: u64, area: &[u8]) -> Option<usize> {
    let (mut low, mut high) = (0, part.length(area)?);
    while low < high {
        let middle = (low + high) / 2;
        if word(area, part.row(middle)) < id {
            low = middle + 1;
        } else {
            high = middle;
        }
    }
    let found = low < part.length(area)? && word(area, part.row(low)) == id;
    found.then_some(low)
}
