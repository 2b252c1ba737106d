//! The ledger: every budget ever carved, with its parent, and what was charged to each in each
//! period. Nothing is ever struck out.
//!
//! The definition is P3's `Ledger.antt`. It keeps a list of charges and sums over it; here the
//! charges of a budget in a period are summed up as they come.

use crate::period_of;
use std::collections::BTreeMap;

/// A budget, the root among them.
#[derive(Clone, Copy, Debug, PartialEq, Eq)]
pub struct Carved {
    /// The budget that it was carved from; the root's is the root.
    pub parent: u64,
    /// Its CPU time in each period.
    pub allowance: u128,
}

/// The most that a budget and all below it spent in a period.
#[derive(Clone, Copy, Debug, PartialEq, Eq)]
pub struct Most {
    /// The first period in which it was so much.
    pub period: u128,
    /// How much it was.
    pub spent: u128,
}

/// A budget that spent more than its allowance in a period, with all below it.
#[derive(Clone, Copy, Debug, PartialEq, Eq)]
#[expect(missing_docs, reason = "the names say what they are")]
pub struct Overspent {
    pub budget: u64,
    pub period: u128,
    pub spent: u128,
    pub allowance: u128,
}

/// The ledger of a board from its opening on.
#[derive(Clone, Debug, Default, PartialEq, Eq)]
pub struct Ledger {
    budgets: BTreeMap<u64, Carved>,
    /// What was charged to each budget itself, by period.
    charged: BTreeMap<u128, BTreeMap<u64, u128>>,
}

/// Budgets with what each spent.
type Spent = BTreeMap<u64, u128>;

impl Ledger {
    /// The root is there from the opening on.
    pub fn opening(cpu: u64) -> Self {
        let mut ledger = Self::default();
        ledger.note_budget(crate::ROOT, crate::ROOT, cpu);
        ledger
    }

    /// Notes a budget that is carved out of `parent`. Ids rise.
    pub fn note_budget(&mut self, id: u64, parent: u64, allowance: u64) {
        let allowance = allowance.into();
        self.budgets.insert(id, Carved { parent, allowance });
    }

    /// Notes a charge of CPU time.
    pub fn note_charge(&mut self, budget: u64, ns: u128, time: u128) {
        if ns > 0 {
            let charged = self.charged.entry(period_of(time)).or_default();
            *charged.entry(budget).or_default() += ns;
        }
    }

    /// Every budget ever carved, by rising id.
    pub fn budgets(&self) -> impl Iterator<Item = (u64, Carved)> {
        self.budgets.iter().map(|(id, carved)| (*id, *carved))
    }

    /// The periods in which something was charged.
    pub fn periods(&self) -> impl Iterator<Item = u128> {
        self.charged.keys().copied()
    }

    /// What was charged to a budget in a period, without those below it.
    pub fn charged(&self, period: u128, budget: u64) -> u128 {
        let charged = self.charged.get(&period);
        charged.and_then(|of| of.get(&budget)).copied().unwrap_or(0)
    }

    /// A budget and those above it, up to the root: none if it was never carved.
    pub fn way_up(&self, budget: u64) -> impl Iterator<Item = u64> {
        let first = self.budgets.contains_key(&budget).then_some(budget);
        std::iter::successors(first, |id| {
            let parent = self.budgets.get(id)?.parent;
            // A parent is carved before its child, so its id is lower; the root's is its own.
            (parent < *id && self.budgets.contains_key(&parent)).then_some(parent)
        })
    }

    /// "The CPU charged to a budget and to all below it, those removed meanwhile included", in a
    /// period.
    pub fn spent(&self, period: u128, budget: u64) -> u128 {
        let charged = self.charged.get(&period).into_iter().flatten();
        let below = charged.filter(|(id, _)| self.way_up(**id).any(|above| above == budget));
        below.map(|(_, ns)| ns).sum()
    }

    /// What each budget spent in a period, with all below it; those that spent nothing left out.
    pub fn spent_in(&self, period: u128) -> Spent {
        let mut spent = Spent::new();
        for (id, ns) in self.charged.get(&period).into_iter().flatten() {
            for above in self.way_up(*id) {
                *spent.entry(above).or_default() += ns;
            }
        }
        spent
    }

    /// The most that each budget spent in any period, with all below it; those that never spent
    /// anything left out.
    pub fn most(&self) -> BTreeMap<u64, Most> {
        let mut most: BTreeMap<u64, Most> = BTreeMap::new();
        for period in self.periods() {
            for (id, spent) in self.spent_in(period) {
                let found = Most { period, spent };
                let entry = most.entry(id).or_insert(found);
                if spent > entry.spent {
                    *entry = found;
                }
            }
        }
        most
    }

    /// The first budget, by its id, that spent more than its allowance in this period.
    pub fn overspent_in(&self, period: u128) -> Option<Overspent> {
        let spent = self.spent_in(period).into_iter();
        let mut found = spent.map(|(budget, spent)| Overspent {
            budget,
            period,
            spent,
            allowance: self.budgets.get(&budget).map_or(0, |it| it.allowance),
        });
        found.find(|found| found.spent > found.allowance)
    }

    /// The same of the first period that has one; none is document 02's promise.
    pub fn overspent(&self) -> Option<Overspent> {
        self.periods().find_map(|period| self.overspent_in(period))
    }
}
