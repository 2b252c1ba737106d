//! What was spent in each period, on lists that are written out.

use crate::{MS, left, note, told};
use carv_ledger::{Carved, Fall, History, Most, Overspent};

const OPEN: (&str, u64) = ("open 10_000_000 1_000_000", 0);
const CARVE: (&str, u64) = ("create_budget 1 4_000_000 10_000 0", 0);
const SPEND: (&str, u64) = ("charge_cpu 2 4_000_000 10_000_000", 0);

/// P2's story: a child spends its share before its payer is renewed, and is removed. The payer has
/// 6 ms left, not 10.
#[test]
fn a_removed_child_s_time_is_not_spent_twice() {
    let list = [
        OPEN,
        CARVE,
        SPEND,
        ("remove 2 10_000_000", 0),
        ("charge_cpu 1 6_000_000 10_000_000", 0),
        ("charge_cpu 1 1 10_000_000", 12),
    ];
    let opened = told(&list);
    assert_eq!(left(&opened, 1), 0);
    assert_eq!(opened.ledger.spent(1, 1), 10 * MS);
    assert_eq!(opened.ledger.spent(1, 2), 4 * MS, "though it is removed");
    assert_eq!(opened.ledger.spent(0, 1), 0);
    assert_eq!(opened.ledger.overspent(), None);
    assert_eq!(opened.clock.fell(), None);
}

/// The same with a removal whose clock fell: the payer is renewed behind it, with all of its share.
#[test]
fn a_removal_whose_clock_fell() {
    let list = [
        OPEN,
        CARVE,
        SPEND,
        ("remove 2 0", 0),
        ("charge_cpu 1 10_000_000 10_000_000", 0),
    ];
    let opened = told(&list);
    assert_eq!(left(&opened, 1), 0, "the book lets it pass");
    assert_eq!(opened.ledger.spent(1, 1), 14 * MS);
    let found = Overspent {
        budget: 1,
        period: 1,
        spent: 14 * MS,
        allowance: 10 * MS,
    };
    assert_eq!(opened.ledger.overspent(), Some(found));
    let fall = Fall {
        place: 4,
        from: 10 * MS,
        to: 0,
    };
    assert_eq!(opened.clock.fell(), Some(fall));
}

/// The same on a board from before P2, with a clock that never fell.
#[test]
fn before_p2() {
    let mut history = History::before_p2();
    let remove = ("remove 2 10_000_000", 0);
    let again = ("charge_cpu 1 10_000_000 10_000_000", 0);
    note(&mut history, &[OPEN, CARVE, SPEND, remove, again]);
    let opened = history.opened().expect("an opening");
    assert_eq!(opened.clock.fell(), None);
    let found = opened.ledger.overspent().map(|found| found.spent);
    assert_eq!(found, Some(14 * MS));
    // And on the board that is opened behind it.
    note(&mut history, &[OPEN, CARVE, SPEND, remove]);
    let opened = history.opened().expect("an opening");
    assert_eq!(opened.book.budgets[&1].start, 0, "not renewed");
}

/// Charges of a grandchild count for all above it, carved CPU for none, a sibling's not for it.
#[test]
fn a_grandchild() {
    let list = [
        OPEN,
        CARVE,
        ("create_budget 2 2_000_000 0 0", 0),
        ("create_budget 1 1_000_000 0 0", 0),
        ("charge_cpu 3 500_000 1", 0),
        ("charge_cpu 2 30_000 2", 0),
        ("charge_cpu 4 7_000 3", 0),
        ("charge_cpu 1 100 4", 0),
        ("remove 3 5", 0),
    ];
    let ledger = told(&list).ledger;
    let spent = [1, 2, 3, 4, 5].map(|id| ledger.spent(0, id));
    assert_eq!(spent, [537_100, 530_000, 500_000, 7_000, 0]);
    assert_eq!(ledger.charged(0, 2), 30_000);
    assert!(ledger.way_up(3).eq([3, 2, 1]));
    assert_eq!(ledger.way_up(5).count(), 0);
    let carved = Carved {
        parent: 2,
        allowance: 2 * MS,
    };
    assert!(ledger.budgets().any(|found| found == (3, carved)));
    assert_eq!(ledger.budgets().count(), 4, "nothing is struck out");
}

#[test]
fn period_ends() {
    let list = [
        OPEN,
        ("charge_cpu 1 3 9_999_999", 0),
        ("charge_cpu 1 5 10_000_000", 0),
        ("charge_cpu 1 7 19_999_999", 0),
        ("charge_cpu 1 2 20_000_000", 0),
        ("charge_cpu 1 10 30_000_000", 0),
        ("charge_cpu 1 2 39_999_999", 0),
    ];
    let ledger = told(&list).ledger;
    assert_eq!(
        [0, 1, 2, 3, 4].map(|period| ledger.spent(period, 1)),
        [3, 12, 2, 12, 0]
    );
    // Of two the first.
    let most = Most {
        period: 1,
        spent: 12,
    };
    assert_eq!(ledger.most().get(&1), Some(&most));
    assert!(ledger.periods().eq(0..4));
}

/// A tick is a charge of what is left, at most 1 ms; also where the current thread is blocked or
/// dead. A tick of thread 0, or on a removed budget, is none.
#[test]
fn ticks() {
    let mut history = History::default();
    let start = "start 7 0 0 0 0 0 0 0 0 0 0";
    let list = [
        OPEN,
        ("create_budget 1 2_300_000 0 0", 0),
        ("create_user_thread 7 2 1", 0),
        (start, 0),
        ("tick 0", 0),
        ("plan 0", 0),
        ("tick 1", 0),
        ("block_current 4 1", 0),
        ("tick 1", 0),
        ("kill 7 1", 0),
        ("tick 2", 0),
        ("tick 3", 0),
        ("tick 18_446_744_073_710", 3),
        ("tick 10", 0),
    ];
    note(&mut history, &list);
    let spent = |history: &History, period| {
        let ledger = &history.opened().expect("an opening").ledger;
        [1, 2].map(|id| ledger.spent(period, id))
    };
    assert_eq!(spent(&history, 0), [2_300_000; 2]);
    assert_eq!(spent(&history, 1), [MS; 2]);
    note(&mut history, &[("remove 2 10_000_000", 0), ("tick 11", 0)]);
    assert_eq!(spent(&history, 1), [MS; 2]);
    let ledger = &history.opened().expect("an opening").ledger;
    assert_eq!(ledger.overspent(), None);
}

/// Refused charges, with 12 too, are none; nor are charges of nothing.
#[test]
fn refused_charges() {
    let list = [
        OPEN,
        CARVE,
        ("charge_cpu 2 4_000_001 0", 12),
        ("charge_cpu 9 1 0", 7),
        ("create_budget 1 5 0 0", 6),
        ("charge_cpu 1 0 0", 0),
    ];
    let ledger = told(&list).ledger;
    assert_eq!(ledger.periods().count(), 0);
    assert_eq!(ledger.budgets().count(), 2);
    assert!(ledger.most().is_empty());
}

/// An accepted opening starts anew, a refused one doesn't; before it nothing is said.
#[test]
fn openings() {
    let mut history = History::default();
    note(&mut history, &[("tick 5", 1), ("open 10_000_001 0", 2)]);
    assert!(history.opened().is_none());
    // A board that is there already, and of which nothing is known.
    note(&mut history, &[("charge_cpu 1 5 5", 0)]);
    assert!(history.opened().is_none());
    note(
        &mut history,
        &[OPEN, CARVE, SPEND, ("open 10_000_001 0", 2)],
    );
    assert_eq!(history.opened().map(|it| it.clock.last()), Some(10 * MS));
    note(&mut history, &[("open 5_000_000 0", 0)]);
    let opened = history.opened().expect("an opening");
    assert_eq!((opened.clock.last(), opened.book.next), (0, 2));
    assert_eq!(opened.ledger.periods().count(), 0);
    let root = Carved {
        parent: 1,
        allowance: 5 * MS,
    };
    assert!(opened.ledger.budgets().eq([(1, root)]));
}

/// The first period that has one, and in it the first budget.
#[test]
fn the_first_that_is_overspent() {
    let mut ledger = carv_ledger::Ledger::opening(10);
    ledger.note_budget(3, 1, 4);
    ledger.note_budget(4, 3, 4);
    ledger.note_charge(1, 11, 20 * MS);
    ledger.note_charge(4, 5, 19 * MS);
    let found = ledger.overspent().map(|found| (found.period, found.budget));
    assert_eq!(found, Some((1, 3)));
    let later = ledger.overspent_in(2).map(|found| found.budget);
    assert_eq!((later, ledger.overspent_in(0)), (Some(1), None));
}
