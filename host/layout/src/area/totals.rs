//! Figures of a budget and all budgets below it.

use super::{Account, ObjectRow};
use crate::BUDGET;
use std::collections::{BTreeMap, BTreeSet};

/// Figures of a budget and all budgets below it, each summed up.
#[derive(Clone, Copy, Debug, Default, PartialEq, Eq)]
pub struct Totals {
    /// Memory in use.
    pub memory_used: u64,
    /// Memory that may still be used or reserved.
    pub memory_free: u64,
    /// CPU time left, of each budget in its current period.
    pub cpu_left: u64,
}

impl Totals {
    /// The figures as words.
    pub const fn words(self) -> [u64; 3] {
        [self.memory_used, self.memory_free, self.cpu_left]
    }

    fn add(&mut self, account: &Account) {
        for (sum, figure) in [
            (&mut self.memory_used, account.memory_used),
            (&mut self.memory_free, account.memory_free()),
            (&mut self.cpu_left, account.cpu_left),
        ] {
            *sum = sum.saturating_add(figure);
        }
    }
}

/// The totals of every budget in these rows, by its id: each account counts for its budget and for
/// every payer above it. In a sound area no way up is a circle, no id stands twice and no sum is cut
/// off; in any other a way up ends where it comes round, and the first row of an id counts.
pub fn totals(objects: &[ObjectRow]) -> BTreeMap<u64, Totals> {
    let mut budgets = BTreeMap::new();
    for row in objects.iter().filter(|row| row.kind == BUDGET) {
        budgets.entry(row.id).or_insert(row);
    }
    let mut found: BTreeMap<u64, Totals> = BTreeMap::new();
    for row in budgets.values() {
        let mut passed = BTreeSet::new();
        let mut above = Some(row);
        while let Some(budget) = above.filter(|budget| passed.insert(budget.id)) {
            found.entry(budget.id).or_default().add(&row.account);
            above = budgets.get(&budget.payer);
        }
    }
    found
}

#[cfg(test)]
mod tests {
    use super::*;

    /// A budget by id, payer, memory limit, used, reserved and CPU left.
    fn budget([id, payer, limit, used, reserved, left]: [u64; 6]) -> ObjectRow {
        ObjectRow {
            id,
            kind: BUDGET,
            payer,
            account: Account {
                memory_limit: limit,
                memory_used: used,
                memory_reserved: reserved,
                cpu_left: left,
                ..Account::default()
            },
            ..ObjectRow::default()
        }
    }

    fn words(objects: &[ObjectRow]) -> Vec<(u64, [u64; 3])> {
        let totals = totals(objects).into_iter();
        totals.map(|(id, totals)| (id, totals.words())).collect()
    }

    #[test]
    fn sums_over_all_below() {
        let frame = ObjectRow {
            id: 4,
            kind: 3,
            payer: 3,
            ..ObjectRow::default()
        };
        let rows = [
            budget([1, 1, 1_000, 256, 600, 1]),
            budget([2, 1, 500, 128, 300, 10]),
            budget([3, 2, 300, 50, 0, 100]),
            frame,
            budget([5, 1, 100, 0, 0, 1_000]),
        ];
        let expected = [
            (1, [434, 566, 1_111]),
            (2, [178, 322, 110]),
            (3, [50, 250, 100]),
            (5, [0, 100, 1_000]),
        ];
        assert_eq!(words(&rows), expected);
    }

    #[test]
    fn unsound_rows_end() {
        let circle = [
            budget([2, 3, 10, 1, 0, 0]),
            budget([3, 2, 20, 2, 0, 0]),
            budget([4, 9, 5, u64::MAX, 0, 0]),
            budget([5, 4, 5, 1, 0, 0]),
            budget([5, 2, 0, 7, 0, 0]),
            budget([6, 2, 9, 4, 0, 0]),
        ];
        let found = words(&circle);
        let used: Vec<(u64, u64)> = found.iter().map(|(id, words)| (*id, words[0])).collect();
        assert_eq!(used, [(2, 7), (3, 7), (4, u64::MAX), (5, 1), (6, 4)]);
    }
}
