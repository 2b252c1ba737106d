//! Ticks in any order, many threads, many ticks.

use crate::bench::{Bench, MS, accepted};
use crate::reading::label;
use carv::{LAST_TICK, MOST_THREADS, ObjectId};
use carv_watch::Doing::{HeldBack, Off, Runs, Sleeps, Waits};
use carv_watch::{MOST_EVENTS, Rows, Threads, Timeline};

#[test]
fn none() {
    assert_eq!(Timeline::new().ticks(), None);
    assert_eq!(Timeline::new().doing(ObjectId::ROOT, 0), None);
}

/// The first line of an event is kept, cut to its width, of so many events; the others are counted.
#[test]
fn events() {
    let mut timeline = Timeline::new();
    timeline.event(3, "one on\nand more".to_string());
    timeline.event(4, "x".repeat(1_000));
    for n in 2..MOST_EVENTS as u64 + 5 {
        timeline.event(n, String::new());
    }
    let (events, left_out) = timeline.events();
    assert_eq!((events.len(), left_out), (MOST_EVENTS, 5));
    assert_eq!((events[0].tick, events[0].text.as_str()), (3, "one on"));
    assert_eq!(events[1].text.chars().count(), 300);
}

/// Accounts are read from the bytes as the board answers them.
#[test]
fn accounts_are_the_boards() {
    let mut bench = Bench::new();
    let one = bench.service(4 * MS);
    bench.budget_of(one, MS);
    accepted(bench.board.insert(carv::Kind::Irq, one, 64));
    bench.tick(1..=25);
    let area = bench.board.as_bytes();
    let read: Vec<_> = carv_watch::accounts(area).collect();
    assert_eq!(read.len(), 3);
    for (budget, account) in read {
        assert_eq!(account, accepted(bench.board.account(budget)), "{budget}");
    }
}

#[test]
fn gaps() {
    let mut bench = Bench::without_first();
    let one = bench.service(4 * MS);
    bench.plan(0);
    bench.tick([5, 47, LAST_TICK]);
    assert_eq!(bench.timeline.ticks(), Some(5..=LAST_TICK));
    assert_eq!(
        [5, 47, LAST_TICK].map(|n| bench.doing(one, n)),
        [Some(Runs); 3]
    );
    assert_eq!(
        [0, 6, 30, LAST_TICK - 1].map(|n| bench.doing(one, n)),
        [None; 4]
    );
    let periods: Vec<u64> = Rows::new(&bench.timeline).periods().collect();
    assert_eq!(periods, [0, 4, LAST_TICK / 10]);
    assert_eq!(bench.part(&label(one), 3).ms_on(), 0);
}

#[test]
fn falling() {
    let mut bench = Bench::without_first();
    let one = bench.service(2 * MS);
    bench.plan(0);
    // At 50 the budget is renewed; time before that doesn't renew it again.
    bench.tick([50, 20, 19]);
    assert_eq!(bench.timeline.ticks(), Some(19..=50));
    assert_eq!(
        [50, 20, 19].map(|n| bench.doing(one, n)),
        [Some(Runs), Some(Runs), Some(HeldBack)]
    );
    let got = [5, 2, 1].map(|period| bench.part(&label(one), period).got_ns);
    assert_eq!(got, [MS, MS, 0]);
    assert_eq!(bench.timeline.repeats(), 0);
}

/// A tick that comes again is noted as last seen, and counts once.
#[test]
fn repeated() {
    let mut bench = Bench::without_first();
    let (one, two) = (bench.service(4 * MS), bench.service(4 * MS));
    bench.plan(0);
    bench.tick([3]);
    assert_eq!(bench.doing(one, 3), Some(Runs));
    bench.tick([3]);
    assert_eq!(
        (bench.doing(one, 3), bench.doing(two, 3)),
        (Some(Waits), Some(Runs))
    );
    assert_eq!(bench.part(&label(one), 0).got_ns, 0);
    assert_eq!(bench.part(&label(two), 0).got_ns, MS);
    assert_eq!(bench.timeline.repeats(), 1);
    // One that was there and is gone does nothing at that tick.
    accepted(
        bench
            .board
            .kill(carv::ThreadId(100 + one.0), carv::Cause::Destroyed),
    );
    accepted(bench.board.remove(one, carv::Nanoseconds(3 * MS)));
    bench.plan(3);
    bench.book(3);
    assert_eq!(bench.doing(one, 3), Some(Off));
}

/// What a budget has left at the last tick is that of the last sighting: none if it is gone by then.
#[test]
fn repeated_without_the_budget() {
    let mut bench = Bench::new();
    let one = bench.service(4 * MS);
    let thread = carv::ThreadId(100 + one.0);
    bench.tick(0..=9);
    bench.timeline.end(&bench.board);
    assert_eq!(bench.thread_total(thread).periods_judged, 1);
    accepted(bench.board.remove(one, carv::Nanoseconds(9 * MS)));
    bench.tick([9]);
    bench.timeline.end(&bench.board);
    assert_eq!(bench.thread_total(thread).periods_judged, 0);
}

/// A thread that was there at a tick and is gone when it comes again is off.
#[test]
fn repeated_without_the_thread() {
    let mut bench = Bench::new();
    let one = bench.service(MS);
    let thread = carv::ThreadId(100 + one.0);
    bench.book(3);
    accepted(bench.board.kill(thread, carv::Cause::Destroyed));
    bench.book(3);
    assert_eq!(bench.timeline.thread_doing(thread, 3), Some(Off));
    assert_eq!(bench.doing(one, 3), Some(Sleeps));
}

/// Threads are by rising id, also where a lower one comes later in a period.
#[test]
fn a_lower_id_later_in_a_period() {
    let mut bench = Bench::new();
    let one = bench.budget(MS);
    bench.thread(9, one);
    bench.book(1);
    let thread = bench.thread(7, one);
    bench.book(2);
    bench.book(3);
    assert_eq!(bench.timeline.thread_doing(thread, 3), Some(Waits));
    let parts = Threads::new(&bench.timeline).in_period(0);
    let ids: Vec<u64> = parts.iter().map(|(thread, ..)| thread.0).collect();
    assert_eq!(ids, [0, 7, 9]);
}

/// A period of which nothing is left with somebody live isn't one of being held back, though the ms
/// behind it is.
#[test]
fn held_back_behind_a_period() {
    let mut bench = Bench::new();
    let one = bench.budget(MS);
    accepted(bench.board.charge_cpu(one, MS, carv::Nanoseconds(0)));
    let thread = bench.thread(7, one);
    bench.book(9);
    accepted(bench.board.kill(thread, carv::Cause::Destroyed));
    bench.book(9);
    bench.thread(7, one);
    bench.timeline.end(&bench.board);
    assert_eq!(bench.thread_total(thread).periods_held_back, 0);
    assert_eq!(bench.total(one).periods_held_back, 1);
}

/// Ticks that came before a budget was carved out are none of its own, whatever their numbers.
#[test]
fn falling_before_the_first_thread() {
    let mut bench = Bench::new();
    bench.tick([50]);
    let one = bench.budget(MS);
    bench.tick([20, 21, 10]);
    bench.thread(7, one);
    bench.tick([11]);
    assert_eq!(
        [50, 20, 21, 10, 11].map(|n| bench.doing(one, n)),
        [
            Some(Off),
            Some(Sleeps),
            Some(Sleeps),
            Some(Sleeps),
            Some(Waits)
        ]
    );
}

#[test]
fn repeated_without_thread_0() {
    let mut bench = Bench::new();
    bench.book(3);
    bench.block();
    bench.plan(3);
    bench.book(3);
    assert_eq!(bench.part("idle", 0).ms(Runs), 1);
    assert_eq!(bench.names(), ["idle"]);
}

#[test]
fn tick_0() {
    let mut bench = Bench::new();
    let one = bench.service(MS);
    bench.book(0);
    assert_eq!(bench.doing(one, 0), Some(Waits));
    assert_eq!(bench.timeline.ticks(), Some(0..=0));
}

#[test]
fn every_thread() {
    let mut bench = Bench::full();
    bench.tick(1..=150);
    assert_eq!(bench.names().len(), MOST_THREADS - 2 + 1);
    let rows = Rows::new(&bench.timeline);
    // In turn, one each tick, and 60,000 ns are booked.
    for row in &rows.rows()[..MOST_THREADS - 2] {
        assert_eq!(row.total.most_ns, 60_000, "{}", row.name);
        assert_eq!(row.total.got_ns, 60_000 * row.total.ms_ran, "{}", row.name);
    }
    let ran: u64 = rows.rows().iter().map(|row| row.total.ms_ran).sum();
    assert_eq!(ran, 150);
}
