//! Calls on the registry.

use super::{Mood, Walk};
use crate::board::call::Call;
use crate::state::{account_of, entry, is_budget, removable_budget, renewed};
use carv_oracle::Snapshot;

impl Walk {
    pub(super) fn create(&mut self, state: &Snapshot) -> Call {
        Call::Create {
            kind: self.kind(),
            payer: self.budget(state),
            backing: !self.draw.random.one_in(8),
        }
    }

    pub(super) fn insert(&mut self, state: &Snapshot) -> Call {
        let payer = self.budget(state);
        Call::Insert {
            kind: self.kind(),
            payer,
            bytes: self.bytes(account_of(state, payer).memory_free()),
        }
    }

    pub(super) fn create_budget(&mut self, state: &Snapshot) -> Call {
        let parent = self.budget(state);
        let account = account_of(state, parent);
        let time = self.time(account.period_start);
        let left = renewed(account, time).cpu_left;
        let free = account.memory_free().saturating_sub(128);
        let (cpu, memory) = match self.draw.random.below(4) {
            0 => (self.draw.amount(left), self.draw.amount(free)),
            1 => (self.draw.within(left), self.draw.within(free)),
            _ => (
                self.draw.random.through(left / 2),
                self.draw.random.through(free / 2),
            ),
        };
        Call::CreateBudget {
            parent,
            cpu,
            memory,
            time,
        }
    }

    pub(super) fn charge_more(&mut self, state: &Snapshot) -> Call {
        let id = self.object(state);
        let payer = entry(state, id).map_or(0, |entry| entry.payer);
        let bytes = self.bytes(account_of(state, payer).memory_free());
        Call::ChargeMore { id, bytes }
    }

    pub(super) fn uncharge(&mut self, state: &Snapshot) -> Call {
        let id = self.object(state);
        let charge = entry(state, id).map_or(0, |entry| entry.charge);
        let bytes = self.draw.amount(charge);
        Call::Uncharge { id, bytes }
    }

    /// Of any object, or of a budget that pays for nothing, at a time around its payer's periods.
    pub(super) fn remove(&mut self, state: &Snapshot) -> Call {
        let from = self.draw.random.below(state.entries.len() as u64) as usize;
        let budget = match self.draw.random.below(4) {
            0 => removable_budget(state, from),
            _ => None,
        };
        let id = budget.unwrap_or_else(|| self.object(state));
        let payer = entry(state, id).map_or(0, |entry| entry.payer);
        let time = self.time(account_of(state, payer).period_start);
        Call::Remove { id, time }
    }

    pub(super) fn refill(&mut self, state: &Snapshot) -> Call {
        let id = self.budget(state);
        let time = self.time(account_of(state, id).period_start);
        Call::Refill { id, time }
    }

    pub(super) fn charge_cpu(&mut self, state: &Snapshot) -> Call {
        let id = self.budget(state);
        let account = account_of(state, id);
        let time = self.time(account.period_start);
        let left = renewed(account, time).cpu_left;
        let ns = match self.draw.random.below(8) {
            0 => self.draw.amount(account.cpu_left),
            1..4 => self.draw.amount(left),
            _ => self.draw.within(left / 4),
        };
        Call::ChargeCpu { id, ns, time }
    }

    /// A kind, mostly one that can be created.
    fn kind(&mut self) -> u64 {
        match self.draw.random.below(40) {
            0 => self.draw.number(),
            1 => 0,
            2 => 10,
            3..15 => self.draw.random.below(9) + 1,
            _ => self.draw.random.of(&[2, 3, 4, 5, 5, 7, 7]),
        }
    }

    /// A charge, around what is free or small. A growing board keeps what is free for later.
    fn bytes(&mut self, free: u64) -> u64 {
        let often = if self.mood == Mood::Grow { 40 } else { 4 };
        if self.draw.random.one_in(often) {
            self.draw.amount(free)
        } else if self.draw.random.one_in(4) {
            self.draw.random.below(2)
        } else {
            self.draw.random.through(free.min(10_000) / 8)
        }
    }

    /// An id, mostly of a live object.
    pub(super) fn object(&mut self, state: &Snapshot) -> u64 {
        let entries = &state.entries;
        match self.draw.random.below(32) {
            0 => self.edge_id(state),
            1 => self.draw.random.below(state.next_id.max(1)),
            2 => 1,
            3..8 => entries.last().map_or(1, |entry| entry.id),
            _ => entries[self.draw.random.below(entries.len() as u64) as usize].id,
        }
    }

    /// An id, mostly of a live budget.
    pub(super) fn budget(&mut self, state: &Snapshot) -> u64 {
        let newest = match self.mood {
            Mood::Deep => 24,
            _ => 8,
        };
        match self.draw.random.below(32) {
            0 => self.object(state),
            1..4 => 1,
            place if place < 4 + newest => newest_budget(state),
            _ => self.any_budget(state),
        }
    }

    fn any_budget(&mut self, state: &Snapshot) -> u64 {
        let from = self.draw.random.below(state.entries.len() as u64) as usize;
        let (before, after) = state.entries.split_at(from);
        let found = after.iter().chain(before).find(|entry| is_budget(entry));
        found.map_or(1, |entry| entry.id)
    }

    pub(super) fn object_or_budget(&mut self, state: &Snapshot) -> u64 {
        if self.draw.random.one_in(2) {
            self.object(state)
        } else {
            self.budget(state)
        }
    }

    fn edge_id(&mut self, state: &Snapshot) -> u64 {
        let next = state.next_id;
        let last = next.wrapping_sub(1);
        let edges = [0, last, next, next.wrapping_add(1), 1 << 63, u64::MAX];
        self.draw.random.of(&edges)
    }
}

fn newest_budget(state: &Snapshot) -> u64 {
    let newest = state.entries.iter().rev().find(|entry| is_budget(entry));
    newest.map_or(1, |entry| entry.id)
}
