//! Whose totals a call reads, to count which cases lists of calls reach.

use super::call::Call;
use crate::state::{entry, is_budget};
use carv_oracle::{Entry, Snapshot};

/// Whose totals are read.
#[derive(Clone, Copy, Debug, PartialEq, Eq, PartialOrd, Ord)]
pub enum Whose {
    /// The root's, with budgets below it or without.
    Root,
    /// Those of a budget with budgets below it, some of them not its own children.
    Deep,
    /// Those of a budget with children alone below it.
    Inner,
    /// Those of a budget with none below it, the root left out.
    Leaf,
    /// Those of an object that is no budget, which is refused.
    NoBudget,
    /// Those of an id without an object, which is refused.
    Missing,
}

impl Whose {
    /// All of them.
    pub const ALL: [Self; 6] = [
        Self::Root,
        Self::Deep,
        Self::Inner,
        Self::Leaf,
        Self::NoBudget,
        Self::Missing,
    ];

    /// Whose totals a call reads in this state; none for any other call.
    pub fn of(call: Call, state: &Snapshot) -> Option<Self> {
        let Call::Totals { id } = call else {
            return None;
        };
        let is_child = |parent: u64| {
            move |entry: &&Entry| is_budget(entry) && entry.payer == parent && entry.id != parent
        };
        let children = |parent| state.entries.iter().filter(is_child(parent));
        Some(match entry(state, id) {
            None => Self::Missing,
            Some(entry) if !is_budget(entry) => Self::NoBudget,
            Some(entry) if entry.payer == id => Self::Root,
            _ if children(id).next().is_none() => Self::Leaf,
            _ if children(id).any(|child| children(child.id).next().is_some()) => Self::Deep,
            _ => Self::Inner,
        })
    }
}

#[cfg(test)]
mod tests {
    use super::super::make::*;
    use super::super::reference::Reference;
    use super::*;
    use carv_oracle::account::PERIOD;

    #[test]
    fn every_case() {
        let mut board = Reference::default();
        for call in [
            open(PERIOD, 1_000_000),
            carve(1, 0, 10_000, 0),
            carve(2, 0, 1_000, 0),
            carve(3, 0, 0, 0),
            create(4, 2, true),
        ] {
            assert_eq!(board.call(call).number, 0, "{call}");
        }
        let of = |call| Whose::of(call, board.state());
        assert_eq!(of(account(1)), None);
        for (id, whose) in (1..).zip(Whose::ALL) {
            assert_eq!(of(totals(id)), Some(whose), "{id}");
        }
    }
}
