//! Looks things up in the state of a board.

use carv_oracle::account::{self, Account};
use carv_oracle::{Entry, Snapshot, Thread};
use std::collections::BTreeSet;

/// The object with this id.
pub fn entry(state: &Snapshot, id: u64) -> Option<&Entry> {
    let place = state.entries.binary_search_by_key(&id, |entry| entry.id);
    place.ok().map(|place| &state.entries[place])
}

/// The thread with this id.
pub fn thread(state: &Snapshot, id: u64) -> Option<&Thread> {
    let place = state.threads.binary_search_by_key(&id, |thread| thread.id);
    place.ok().map(|place| &state.threads[place])
}

/// Whether an object is a budget.
pub fn is_budget(entry: &Entry) -> bool {
    entry.account.is_some()
}

/// The first budget that pays for nothing, from this place of the table on, then from the first on.
pub fn removable_budget(state: &Snapshot, from: usize) -> Option<u64> {
    let payers: BTreeSet<u64> = state.entries.iter().map(|entry| entry.payer).collect();
    let (before, after) = state.entries.split_at(from);
    let mut all = after.iter().chain(before);
    let found = all.find(|entry| is_budget(entry) && !payers.contains(&entry.id));
    found.map(|entry| entry.id)
}

/// A budget's account; one without anything for another id.
pub fn account_of(state: &Snapshot, id: u64) -> Account {
    entry(state, id)
        .and_then(|entry| entry.account)
        .unwrap_or_default()
}

/// The account at this time, renewed if that is due.
pub fn renewed(account: Account, time: u64) -> Account {
    account::refill(account, time).account.unwrap_or_default()
}
