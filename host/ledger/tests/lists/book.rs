//! Document 01's edges that the book has a say in.

use crate::{MS, figures, left, note, told};
use carv_ledger::{History, IDLE};

const OPEN: (&str, u64) = ("open 10_000_000 1_000_000", 0);

/// 01's first edges: a Frame, a carve-out, what is left of the root, two Frames, a removal.
#[test]
fn the_worked_example() {
    let mut history = History::default();
    note(&mut history, &[OPEN, ("create 3 1 1", 0)]);
    let of = |history: &History, id| figures(history.opened().expect("an opening"), id);
    assert_eq!(of(&history, 1), Some([4_096, 0, 0, 10 * MS]));
    note(&mut history, &[("create_budget 1 4_000_000 8_192 0", 0)]);
    assert_eq!(of(&history, 1), Some([4_224, 8_192, 4 * MS, 6 * MS]));
    assert_eq!(of(&history, 3), Some([0, 0, 0, 4 * MS]));
    note(&mut history, &[("create_budget 1 6_000_001 0 0", 12)]);
    assert_eq!(of(&history, 1), Some([4_224, 8_192, 4 * MS, 6 * MS]));
    let frames = [
        ("create 3 3 1", 0),
        ("create 3 3 1", 0),
        ("create 4 3 1", 12),
    ];
    note(&mut history, &frames);
    assert_eq!(of(&history, 3), Some([8_192, 0, 0, 4 * MS]));
    let removals = [("remove 3 0", 10), ("remove 4 0", 0), ("remove 5 0", 0)];
    note(&mut history, &removals);
    assert_eq!(of(&history, 3), Some([0, 0, 0, 4 * MS]));
    note(&mut history, &[("remove 3 0", 0)]);
    assert_eq!(of(&history, 3), None);
    assert_eq!(of(&history, 1), Some([4_096, 0, 0, 6 * MS]));
    let book = &history.opened().expect("an opening").book;
    assert_eq!((book.next, book.objects.len()), (6, 2));
}

/// "Start 0: at 9,999,999 no renewal; at 25,000,000 start is 20,000,000."
#[test]
fn renewals() {
    for (time, start, expected) in [
        ("9_999_999", 0, 7 * MS),
        ("10_000_000", 10 * MS, 10 * MS),
        ("25_000_000", 20 * MS, 10 * MS),
    ] {
        let refill = format!("refill 1 {time}");
        let opened = told(&[OPEN, ("charge_cpu 1 3_000_000 0", 0), (&refill, 0)]);
        assert_eq!(opened.book.budgets[&1].start, start, "{time}");
        assert_eq!(left(&opened, 1), expected, "{time}");
    }
    // A clock that fell renews nothing.
    let fallen = [OPEN, ("refill 1 20_000_000", 0), ("charge_cpu 1 5 0", 0)];
    assert_eq!(left(&told(&fallen), 1), 10 * MS - 5);
}

/// "Root memory 127, carve 0 and 0: 12, no renewal. Memory 128, carve 0 and 1: 12, renewed if due."
#[test]
fn refused_with_12() {
    for (memory, expected) in [("127", 7 * MS), ("128", 10 * MS)] {
        let open = format!("open 10_000_000 {memory}");
        let carve = ("create_budget 1 0 1 10_000_000", 12);
        let opened = told(&[(&open, 0), ("charge_cpu 1 3_000_000 0", 0), carve]);
        assert_eq!(left(&opened, 1), expected, "{memory}");
    }
    let spent = ("charge_cpu 1 3_000_000 0", 0);
    // What is used isn't free: 127 bytes are.
    let (open, used) = (("open 10_000_000 1_127", 0), ("insert 9 1 1_000", 0));
    let carve = ("create_budget 1 0 1 10_000_000", 12);
    assert_eq!(left(&told(&[open, used, spent, carve]), 1), 7 * MS);
    let charge = ("charge_cpu 1 10_000_001 10_000_000", 12);
    assert_eq!(left(&told(&[OPEN, spent, charge]), 1), 10 * MS);
}

/// What an object of each kind that can be created costs, and what a removal credits: the charge as it is then.
#[test]
fn charges() {
    for (kind, bytes) in [(2, 16_384), (3, 4_096), (4, 128), (5, 64), (7, 64)] {
        let create = format!("create {kind} 1 1");
        let opened = told(&[OPEN, (&create, 0)]);
        assert_eq!(figures(&opened, 1).map(|it| it[0]), Some(bytes), "{kind}");
    }
    let list = [
        OPEN,
        ("create 3 1 1", 0),
        ("create 3 1 1", 0),
        ("charge_more 2 100", 0),
        ("uncharge 2 4_000", 0),
    ];
    let used = |list: &[_]| figures(&told(list), 1).map(|it| it[0]);
    assert_eq!(used(&list), Some(4_292));
    assert_eq!(
        used(&[&list[..], &[("remove 2 0", 0)]].concat()),
        Some(4_096)
    );
}

/// "Other refusals move nothing", an opening among them.
#[test]
fn other_refusals() {
    let list = [
        OPEN,
        ("create_budget 1 4_000_000 8_192 0", 0),
        ("create 3 2 1", 0),
    ];
    let before = told(&list);
    for refused in [
        ("open 10_000_001 5", 2),
        ("open 10_000_000 5", 1),
        ("create_budget 1 1 0 10_000_000", 6),
        ("refill 3 10_000_000", 7),
        ("charge_cpu 9 1 10_000_000", 7),
        ("remove 1 10_000_000", 9),
        ("remove 2 10_000_000", 10),
        ("tick 18_446_744_073_710", 3),
        ("uncharge 3 4_097", 11),
        ("create 4 2 1", 12),
        ("create 8 2 1", 13),
        ("create 3 2 0", 14),
        ("start 7 0 0 0 0 0 0 0 0 0 0", 7),
        ("block_current 6 0", 4),
        ("kill 18446744073709551615 1", 5),
    ] {
        let mut history = History::default();
        note(&mut history, &list);
        note(&mut history, &[refused]);
        let after = history.opened().expect("an opening");
        assert_eq!(after.book, before.book, "{refused:?}");
        assert_eq!(after.ledger, before.ledger, "{refused:?}");
    }
}

/// A removed budget's payer is renewed first, with the child's share still reserved; another
/// object's is not.
#[test]
fn removals_renew() {
    let list = [
        OPEN,
        ("create_budget 1 4_000_000 0 0", 0),
        ("create 4 1 1", 0),
        ("remove 3 10_000_000", 0),
    ];
    let mut history = History::default();
    note(&mut history, &list);
    assert_eq!(history.opened().map(|it| left(it, 1)), Some(6 * MS));
    assert_eq!(
        history.opened().map(|it| it.book.budgets[&1].start),
        Some(0)
    );
    note(&mut history, &[("remove 2 10_000_000", 0)]);
    let opened = history.opened().expect("an opening");
    assert_eq!(opened.book.budgets[&1].start, 10 * MS);
    assert_eq!(figures(opened, 1), Some([0, 0, 0, 6 * MS]));
    let mut before_p2 = History::before_p2();
    note(&mut before_p2, &list);
    note(&mut before_p2, &[("remove 2 10_000_000", 0)]);
    let opened = before_p2.opened().expect("an opening");
    assert_eq!(opened.book.budgets[&1].start, 0);
    assert_eq!(figures(opened, 1), Some([0, 0, 0, 6 * MS]));
}

/// A child has its parent's start after the renewal that its carve-out makes.
#[test]
fn a_child_s_first_period() {
    let carve = ("create_budget 1 4_000_000 1_000 25_000_000", 0);
    let opened = told(&[OPEN, carve]);
    assert_eq!(opened.book.budgets[&2].start, 20 * MS);
    let spent = [OPEN, carve, ("charge_cpu 2 4_000_000 29_999_999", 0)];
    assert_eq!(left(&told(&spent), 2), 0);
    let renewed = [&spent[..], &[("refill 2 30_000_000", 0)]].concat();
    assert_eq!(left(&told(&renewed), 2), 4 * MS);
    // With a clock that fell the parent isn't renewed, and its start is ahead.
    let fallen = [OPEN, ("refill 1 30_000_000", 0), carve];
    assert_eq!(told(&fallen).book.budgets[&2].start, 30 * MS);
}

const START: &str = "0 0 0 0 0 0 0 0 0 0";

/// Threads 7 and 8 on budgets 2 and 3, both started.
fn two_threads() -> History {
    let mut history = History::default();
    let [seven, eight] = [7, 8].map(|id| format!("start {id} {START}"));
    note(
        &mut history,
        &[
            OPEN,
            ("create_budget 1 1_300_000 0 0", 0),
            ("create_budget 1 4_000_000 0 0", 0),
            ("create_user_thread 7 2 1", 0),
            ("create_user_thread 8 3 1", 0),
            (&seven, 0),
            (&eight, 0),
        ],
    );
    history
}

/// Who is current, and the queue.
fn planned(history: &History) -> (u64, Vec<u64>) {
    let book = &history.opened().expect("an opening").book;
    (book.current, book.queue.clone())
}

#[test]
fn plannings() {
    let mut history = two_threads();
    assert_eq!(planned(&history), (0, vec![7, 8]));
    note(&mut history, &[("plan 0", 0)]);
    assert_eq!(planned(&history), (7, vec![8, 0]));
    // It stops running, so it isn't put back; thread 0 is.
    note(
        &mut history,
        &[("block_current 5 3", 0), ("plan 0", 0), ("plan 0", 0)],
    );
    assert_eq!(planned(&history), (0, vec![8]));
    note(&mut history, &[("block_current 4 1", 0), ("tick 2", 0)]);
    assert_eq!(planned(&history), (0, vec![8]), "it sleeps until 3");
    note(&mut history, &[("tick 3", 0)]);
    assert_eq!(planned(&history), (0, vec![8, 7]));
    note(&mut history, &[("kill 8 1", 0), ("plan 3", 0)]);
    assert_eq!(planned(&history), (7, vec![]));
    note(
        &mut history,
        &[("wake 0 1 2 3", 0), ("kill 7 2", 0), ("kill 0 1", 0)],
    );
    note(&mut history, &[("plan 3", 0)]);
    assert_eq!(planned(&history), (IDLE, vec![]));
    let (new, start) = ("create_user_thread 9 3 1", format!("start 9 {START}"));
    note(&mut history, &[(new, 0), (&start, 0), ("plan 4", 0)]);
    assert_eq!(planned(&history), (9, vec![]), "idle is in no queue");
}

/// "Wakes sleepers due at or before n, by rising id": none that was killed or woken meanwhile, nor a
/// new thread under the id of one.
#[test]
fn sleepers() {
    let mut history = History::default();
    note(&mut history, &[OPEN]);
    for id in [7, 4, 6, 5] {
        let new = format!("create_user_thread {id} 1 1");
        let start = format!("start {id} {START}");
        note(&mut history, &[(&new, 0), (&start, 0)]);
    }
    for until in [3, 2, 3, 4] {
        let sleep = format!("block_current 5 {until}");
        note(&mut history, &[("plan 0", 0), (&sleep, 0)]);
    }
    note(&mut history, &[("plan 0", 0)]);
    assert_eq!(planned(&history), (0, vec![]));
    // A board that accepts this is mistaken; the book then has a thread without a wait.
    let mut anew = history.clone();
    note(&mut anew, &[("create_user_thread 4 1 1", 0), ("tick 3", 0)]);
    assert_eq!(planned(&anew), (0, vec![6, 7]));
    let mut woken = history.clone();
    note(&mut woken, &[("tick 1", 0)]);
    assert_eq!(planned(&woken), (0, vec![]));
    note(&mut woken, &[("tick 3", 0)]);
    assert_eq!(planned(&woken), (0, vec![4, 6, 7]));
    let meanwhile = [
        ("kill 4 1", 0),
        ("create_user_thread 4 1 1", 0),
        ("wake 7 0 0 0", 0),
    ];
    note(&mut history, &meanwhile);
    note(&mut history, &[("tick 4", 0)]);
    assert_eq!(planned(&history), (0, vec![7, 5, 6]));
}

/// "Tick without renewal, 300,000 left: 0 left"; then the thread is passed over until its budget is
/// due, which the planning's test renews.
#[test]
fn a_tick_where_less_is_left() {
    let mut history = two_threads();
    note(&mut history, &[("plan 0", 0), ("tick 1", 0)]);
    assert_eq!(history.opened().map(|it| left(it, 2)), Some(300_000));
    note(&mut history, &[("tick 2", 0)]);
    assert_eq!(history.opened().map(|it| left(it, 2)), Some(0));
    note(
        &mut history,
        &[("block_current 4 1", 0), ("wake 7 0 0 0", 0)],
    );
    note(&mut history, &[("plan 2", 0)]);
    assert_eq!(planned(&history), (8, vec![0, 7]));
    note(&mut history, &[("kill 0 1", 0), ("plan 9", 0)]);
    assert_eq!(planned(&history), (8, vec![7]));
    note(&mut history, &[("plan 10", 0)]);
    assert_eq!(planned(&history), (7, vec![8]));
    assert_eq!(history.opened().map(|it| left(it, 2)), Some(1_300_000));
    // Tested after it no budget was.
    let start = |id| history.opened().map(|it| it.book.budgets[&id].start);
    assert_eq!((start(2), start(3)), (Some(10 * MS), Some(0)));
}

/// "A thread whose budget id names no live budget is passed over and not charged."
#[test]
fn a_thread_on_a_removed_budget() {
    let mut history = two_threads();
    note(
        &mut history,
        &[("plan 0", 0), ("remove 2 0", 0), ("tick 1", 0)],
    );
    let opened = history.opened().expect("an opening");
    assert_eq!(opened.ledger.periods().count(), 0);
    note(
        &mut history,
        &[("plan 1", 0), ("kill 0 1", 0), ("plan 1", 0)],
    );
    assert_eq!(planned(&history), (8, vec![7]));
}
