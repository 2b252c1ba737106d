//! Which budgets share a row, and what it says of them together.

use crate::bench::{Bench, MS, accepted};
use crate::reading::label;
use carv::{Cause, ThreadId};
use carv_watch::Doing::{HeldBack, Off, Runs, Sleeps, Waits};
use carv_watch::Rows;

/// By the lowest id, named or not, thread 0 and idle last. The root has no thread, so no row.
#[test]
fn order() {
    let mut bench = Bench::new();
    let budgets = [MS, MS, MS].map(|share| bench.service(share));
    bench.timeline.name(budgets[2], "last");
    bench.timeline.name(budgets[0], "first");
    bench.tick([1]);
    let names = ["first", &label(budgets[1]), "last", "no budget", "idle"];
    assert_eq!(bench.names(), names);
}

#[test]
fn one_name_one_row() {
    let mut bench = Bench::without_first();
    let one = bench.service(2 * MS);
    bench.plan(0);
    bench.tick(1..=3);
    accepted(bench.board.kill(ThreadId(100 + one.0), Cause::Destroyed));
    accepted(bench.board.remove(one, carv::Nanoseconds(3 * MS)));
    bench.tick(4..=29);
    let two = bench.service(MS);
    bench.plan(29);
    bench.tick(30..=31);
    // Named only now.
    for budget in [one, two] {
        bench.timeline.name(budget, "printer");
    }
    assert_eq!(bench.names(), ["printer", "idle"]);
    let rows = Rows::new(&bench.timeline);
    let total = rows.budget("printer").expect("it is there").total;
    assert_eq!(
        (total.ms_ran, total.got_ns, total.most_ns),
        (3, 3 * MS, 2 * MS)
    );
    assert_eq!((total.ms_on, total.periods_on), (5, 2));
    assert_eq!(total.shares_ns, Some((MS, 2 * MS)));
    assert_eq!(total.average_ms(), 1.5);
    let parts = [0, 1, 3].map(|period| bench.part("printer", period));
    assert_eq!(parts.map(|part| part.got_ns), [2 * MS, 0, MS]);
    assert_eq!(parts[0].doing[4], Some(Off));
}

/// Asked for, each budget has a row of its own, whatever its name.
#[test]
fn a_row_for_each_budget() {
    let mut bench = Bench::new();
    let budgets = [MS, MS].map(|share| bench.service(share));
    for budget in budgets {
        bench.timeline.name(budget, "row");
    }
    bench.tick([1]);
    let rows = Rows::of_each_budget(&bench.timeline);
    let names: Vec<&str> = rows.rows().iter().map(|row| row.name.as_str()).collect();
    let numbers = budgets.map(|budget| budget.0.to_string());
    assert_eq!(names, [&numbers[0], &numbers[1], "no budget", "idle"]);
}

/// Of budgets that share a row the one that does most counts.
#[test]
fn what_wins() {
    let mut bench = Bench::new();
    let [sleeps, waits, held] = [MS, MS, MS].map(|share| bench.budget(share));
    bench.inactive(7, sleeps);
    bench.thread(8, waits);
    bench.thread(9, held);
    accepted(bench.board.charge_cpu(held, MS, carv::Nanoseconds(0)));
    bench.book(1);
    let row = |bench: &Bench| bench.part("row", 0).doing[1];
    bench.timeline.name(sleeps, "row");
    assert_eq!(row(&bench), Some(Sleeps));
    bench.timeline.name(waits, "row");
    assert_eq!(row(&bench), Some(Waits));
    bench.timeline.name(held, "row");
    assert_eq!(row(&bench), Some(HeldBack));
    assert!(bench.part("row", 0).held_back);
    assert_eq!(bench.part("row", 0).share_ns, 3 * MS);
    bench.block();
    bench.plan(1);
    bench.book(2);
    assert_eq!(bench.part("row", 0).doing[2], Some(Runs));
}

/// Every ms has one that runs, and whoever has always work gets its share of each period.
#[test]
fn all_time_is_someones() {
    let mut bench = Bench::without_first();
    for share in [3 * MS, 2 * MS, MS] {
        bench.service(share);
    }
    bench.plan(0);
    bench.tick(1..100);
    let rows = Rows::new(&bench.timeline);
    let ran: Vec<u64> = rows.rows().iter().map(|row| row.total.ms_ran).collect();
    // The first period has 9 ms.
    assert_eq!(ran, [30, 20, 10, 39]);
    for period in 1..10 {
        let parts = rows.in_period(period);
        let got: Vec<u64> = parts.values().map(|part| part.got_ns / MS).collect();
        assert_eq!(got, [3, 2, 1, 4], "period {period}");
    }
}
