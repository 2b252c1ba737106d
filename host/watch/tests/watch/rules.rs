//! What a budget does in a ms, by its rule.

use crate::bench::{Bench, MS, accepted};
use crate::reading::label;
use carv::Cause;
use carv_watch::Doing::{HeldBack, Off, Runs, Sleeps, Waits};
use carv_watch::{Kind, Rows};

#[test]
fn runs_and_waits() {
    let mut bench = Bench::without_first();
    let (one, two) = (bench.service(4 * MS), bench.service(4 * MS));
    bench.plan(0);
    bench.tick(1..=2);
    assert_eq!(
        (bench.doing(one, 1), bench.doing(two, 1)),
        (Some(Runs), Some(Waits))
    );
    assert_eq!(
        (bench.doing(one, 2), bench.doing(two, 2)),
        (Some(Waits), Some(Runs))
    );
}

/// Whoever is current runs, also Blocked or Dead, until a planning.
#[test]
fn runs_until_a_planning() {
    let mut bench = Bench::without_first();
    let one = bench.service(4 * MS);
    bench.plan(0);
    bench.block();
    bench.book(1);
    accepted(
        bench
            .board
            .kill(accepted(bench.board.current()), Cause::Destroyed),
    );
    bench.book(2);
    bench.plan(2);
    bench.book(3);
    assert_eq!(
        [1, 2, 3].map(|n| bench.doing(one, n)),
        [Some(Runs), Some(Runs), Some(Sleeps)]
    );
    assert_eq!(bench.part(&label(one), 0).got_ns, 2 * MS);
}

/// Time left is that at the ms's beginning: tick 10 ends the last ms without, tick 11 the first
/// after the renewal.
#[test]
fn held_back() {
    let mut bench = Bench::without_first();
    let one = bench.service(MS);
    bench.plan(0);
    bench.tick(1..=12);
    assert_eq!(bench.doing(one, 1), Some(Runs));
    for n in 2..=10 {
        assert_eq!(bench.doing(one, n), Some(HeldBack), "tick {n}");
    }
    assert_eq!(bench.doing(one, 11), Some(Runs));
    assert_eq!(bench.doing(one, 12), Some(HeldBack));
}

/// A renewal that is due by the ms's beginning counts, though no call made it yet.
#[test]
fn waits_with_a_renewal_due() {
    let mut bench = Bench::new();
    let one = bench.service(MS);
    accepted(bench.board.charge_cpu(one, MS, carv::Nanoseconds(0)));
    bench.book(10);
    bench.book(11);
    assert_eq!(bench.doing(one, 10), Some(HeldBack));
    assert_eq!(bench.doing(one, 11), Some(Waits));
}

/// A period is one of being held back by the ms that begin in it: tick 10 is the first's.
#[test]
fn the_period_of_being_held_back() {
    let mut bench = Bench::new();
    let one = bench.service(MS);
    accepted(bench.board.charge_cpu(one, MS, carv::Nanoseconds(0)));
    bench.book(9);
    assert!(bench.part(&label(one), 0).held_back);

    let mut bench = Bench::new();
    let one = bench.budget(MS);
    bench.inactive(7, one);
    accepted(bench.board.charge_cpu(one, MS, carv::Nanoseconds(0)));
    bench.book(9);
    let started = bench
        .board
        .start(carv::ThreadId(7), Default::default(), Default::default());
    accepted(started);
    bench.book(10);
    assert_eq!(bench.doing(one, 10), Some(HeldBack));
    assert!(bench.part(&label(one), 0).held_back);
    assert!(!bench.part(&label(one), 1).held_back);
}

#[test]
fn sleeps() {
    let mut bench = Bench::without_first();
    let (blocked, inactive) = (bench.service(MS), bench.budget(MS));
    bench.inactive(7, inactive);
    bench.plan(0);
    bench.block();
    bench.plan(0);
    bench.tick(1..=2);
    assert_eq!(bench.doing(blocked, 2), Some(Sleeps));
    assert_eq!(bench.doing(inactive, 2), Some(Sleeps));
    accepted(bench.board.kill(carv::ThreadId(7), Cause::Destroyed));
    bench.tick([3]);
    assert_eq!(bench.doing(inactive, 3), Some(Sleeps));
}

/// A live budget sleeps before its first thread too; before it was carved out it is off.
#[test]
fn sleeps_before_its_first_thread() {
    let mut bench = Bench::new();
    bench.tick(1..=12);
    let one = bench.budget(2 * MS);
    bench.tick(13..=25);
    assert_eq!(bench.names(), ["no budget", "idle"]);
    bench.thread(7, one);
    bench.tick([26]);
    assert_eq!(
        [12, 13, 25].map(|n| bench.doing(one, n)),
        [Some(Off), Some(Sleeps), Some(Sleeps)]
    );
    assert_eq!(bench.part(&label(one), 1).share_ns, 2 * MS);
}

/// The share of a period is the one seen in it, before the first thread too.
#[test]
fn share_before_its_first_thread() {
    let mut bench = Bench::new();
    let one = bench.budget(6 * MS);
    bench.tick(1..=9);
    bench.budget_of(one, 2 * MS);
    bench.tick(10..=20);
    bench.thread(7, one);
    bench.tick(21..=25);
    let shares = [0, 1, 2].map(|period| bench.part(&label(one), period).share_ns / MS);
    assert_eq!(shares, [6, 4, 4]);
}

#[test]
fn off() {
    let mut bench = Bench::new();
    bench.tick([1]);
    let one = bench.budget(2 * MS);
    bench.inactive(7, one);
    bench.tick([2]);
    accepted(bench.board.remove(one, carv::Nanoseconds(2 * MS)));
    bench.tick([3]);
    assert_eq!(
        [1, 2, 3].map(|n| bench.doing(one, n)),
        [Some(Off), Some(Sleeps), Some(Off)]
    );
    let total = Rows::new(&bench.timeline).rows()[0].total;
    assert_eq!((total.ms_on, total.periods_on), (1, 1));
}

/// The thread that is current runs also without its budget; nothing is booked then.
#[test]
fn runs_without_its_budget() {
    let mut bench = Bench::without_first();
    let one = bench.service(2 * MS);
    bench.plan(0);
    bench.book(1);
    accepted(bench.board.remove(one, carv::Nanoseconds(MS)));
    bench.book(2);
    assert_eq!(bench.doing(one, 2), Some(Runs));
    let part = bench.part(&label(one), 0);
    assert_eq!((part.got_ns, part.ms(Runs)), (MS, 2));
    assert_eq!(bench.part("idle", 0).ms(Runs), 0);
}

/// A removed budget had its time in this period: of the share that it leaves, its payer gets the
/// rest, and the whole from the next period on.
#[test]
fn a_removal_in_a_period() {
    let mut bench = Bench::without_first();
    let payer = bench.budget(5 * MS);
    let child = bench.budget_of(payer, 4 * MS);
    let of_child = bench.thread(7, child);
    bench.plan(10);
    bench.tick(11..=14);
    accepted(bench.board.kill(of_child, Cause::Destroyed));
    accepted(bench.board.remove(child, carv::Nanoseconds(14 * MS)));
    bench.thread(8, payer);
    bench.plan(14);
    bench.tick(15..=30);
    let got = |budget, period| bench.part(&label(budget), period).got_ns;
    assert_eq!([got(child, 1), got(payer, 1)], [4 * MS, MS]);
    assert!(bench.part(&label(payer), 1).held_back);
    assert_eq!([got(child, 2), got(payer, 2)], [0, 5 * MS]);
}

/// What is reserved below a budget isn't its share; the highest of a period counts.
#[test]
fn share_with_reserved() {
    let mut bench = Bench::new();
    let one = bench.service(6 * MS);
    let other = bench.service(MS);
    bench.budget_of(one, 2 * MS);
    bench.tick(1..=11);
    assert_eq!(bench.part(&label(one), 0).share_ns, 4 * MS);
    bench.budget_of(one, MS);
    bench.tick(12..=20);
    assert_eq!(bench.part(&label(one), 1).share_ns, 4 * MS);
    assert_eq!(bench.part(&label(one), 2).share_ns, 3 * MS);
    assert_eq!(bench.part(&label(other), 2).share_ns, MS);
    let total = Rows::new(&bench.timeline).rows()[0].total;
    assert_eq!(total.shares_ns, Some((3 * MS, 4 * MS)));
}

/// It counts also if it was lower first.
#[test]
fn share_that_rises_in_a_period() {
    let mut bench = Bench::new();
    let one = bench.service(6 * MS);
    let child = bench.budget_of(one, 2 * MS);
    bench.tick(10..=12);
    accepted(bench.board.remove(child, carv::Nanoseconds(12 * MS)));
    bench.tick(13..=20);
    let shares = [1, 2].map(|period| bench.part(&label(one), period).share_ns / MS);
    assert_eq!(shares, [6, 6]);
}

#[test]
fn booked_less_than_a_tick() {
    let mut bench = Bench::without_first();
    let one = bench.service(2_300_000);
    bench.plan(0);
    bench.tick(1..=11);
    let part = bench.part(&label(one), 0);
    assert_eq!(
        (part.got_ns, part.ms(Runs), part.ms(HeldBack)),
        (2_300_000, 3, 6)
    );
    assert_eq!(part.share_ns, 2_300_000);
    assert_eq!(bench.part(&label(one), 1).got_ns, MS);
}

/// A tick at which a renewal is due takes from the renewed account, in the period that it begins.
#[test]
fn booked_with_a_renewal() {
    let mut bench = Bench::without_first();
    let one = bench.service(10 * MS);
    bench.plan(0);
    bench.tick(1..20);
    let got = [0, 1].map(|period| bench.part(&label(one), period).got_ns);
    assert_eq!(got, [9 * MS, 10 * MS]);
}

#[test]
fn no_budget() {
    let mut bench = Bench::new();
    bench.tick(1..=3);
    assert_eq!(bench.names(), ["no budget", "idle"]);
    bench.block();
    bench.plan(3);
    bench.tick(4..=5);
    let part = bench.part("no budget", 0);
    assert_eq!(
        (part.got_ns, part.ms(Runs), part.ms(Sleeps)),
        (3 * MS, 3, 2)
    );
    assert_eq!(bench.part("idle", 0).ms(Runs), 2);

    let mut bench = Bench::without_first();
    bench.plan(0);
    bench.tick(1..=3);
    assert_eq!(bench.names(), ["idle"]);
    assert_eq!(Rows::new(&bench.timeline).rows()[0].kind, Kind::Idle);
}
