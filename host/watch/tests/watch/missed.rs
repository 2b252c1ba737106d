//! Missed periods on boards: who wanted more than it got although it had time.

use crate::bench::{Bench, MS, accepted};
use crate::reading::label;
use carv::{Cause, ObjectId, Refusal, ThreadId, Wait};
use carv_watch::{Doing, MissedPeriod, Outcome, Rows, Threads};

/// Counting with 4 ms, two others with 3 ms each and thread 0, none ever sleeping: the planning goes
/// round, thread 0 is never held back, and counting gets 2 or 3 ms of its 4.
fn starving() -> (Bench, [ObjectId; 3]) {
    let mut bench = Bench::new();
    let budgets = [4, 3, 3].map(|ms| bench.service(ms * MS));
    bench.plan(0);
    bench.tick(1..=109);
    bench.timeline.end(&bench.board);
    (bench, budgets)
}

#[test]
fn starved_by_thread_0() {
    let (bench, budgets) = starving();
    let counting = bench.total(budgets[0]);
    // Period 0 has nine ticks, so nothing is said of it; the other ten are missed, each of them.
    assert_eq!((counting.periods_on, counting.periods_partial), (11, 1));
    assert_eq!(
        (counting.periods_judged, counting.periods_missed()),
        (10, 10)
    );
    assert_eq!(
        (counting.least_ns, counting.most_ns),
        (Some(2 * MS), 3 * MS)
    );
    assert_eq!(counting.periods_held_back, 0);
    let missed = counting.missed.expect("it missed some");
    let first = bench.part(&label(budgets[0]), 1);
    assert_eq!(first.outcome, Some(Outcome::Missed));
    let expected = MissedPeriod {
        number: 1,
        got_ns: first.got_ns,
        missed_ns: 4 * MS - first.got_ns,
    };
    assert_eq!(missed.first, expected);
    assert_eq!(
        (missed.worst.got_ns, missed.worst.missed_ns),
        (2 * MS, 2 * MS)
    );
    let two = |number: &u64| bench.part(&label(budgets[0]), *number).missed_ns == 2 * MS;
    assert_eq!(Some(missed.worst.number), (1..=10).find(two));
    assert!((missed.worst.number + 1..=10).any(|number| two(&number)));
    assert_eq!(missed.ns, 10 * 4 * MS - counting.judged_got_ns);
    // It always wants to run: ten ms of every ten.
    assert_eq!(counting.wanted_ns, 10 * 10 * MS);
    let wait = counting.longest_wait.expect("it waits");
    assert_eq!((wait.ms, wait.held_back_ms, wait.ran), (3, 0, true));
    // The others miss a period where they get 2 of 3 ms, and use their share up where they get 3.
    for budget in &budgets[1..] {
        let total = bench.total(*budget);
        assert_eq!(total.periods_missed() + total.periods_used_up, 10);
        assert!(total.periods_missed() > 0 && total.periods_used_up > 0);
    }
}

/// The thread of a budget that has no other is judged as its budget.
#[test]
fn threads_as_their_budgets() {
    let (bench, budgets) = starving();
    for budget in budgets {
        let thread = bench.thread_total(ThreadId(100 + budget.0));
        assert_eq!(thread, bench.total(budget));
    }
    let first = bench.thread_total(ThreadId::FIRST);
    assert_eq!(first.periods_missed(), 10, "it would run all the time");
    assert_eq!(first.got_ns, first.ms_ran * MS);
    assert_eq!(first.wanted_ns, 10 * 10 * MS);
    assert_eq!(first.shares_ns, Some((0, 0)));
    let ids: Vec<u64> = Threads::new(&bench.timeline)
        .threads()
        .iter()
        .map(|thread| thread.id.0)
        .collect();
    assert_eq!(ids, [0, 102, 103, 104], "idle is left out");
}

/// Services of these shares in ms that always have work, thread 0 asleep, in ten whole periods.
fn always_working(shares: [u64; 3]) -> (Bench, [ObjectId; 3]) {
    let mut bench = Bench::without_first();
    let budgets = shares.map(|ms| bench.service(ms * MS));
    bench.plan(0);
    bench.tick(1..=109);
    bench.timeline.end(&bench.board);
    (bench, budgets)
}

/// Without thread 0, and with a ms to spare, each gets all of its share.
#[test]
fn shares_that_fit() {
    let shares = [4, 3, 2];
    let (bench, budgets) = always_working(shares);
    for (budget, share) in budgets.into_iter().zip(shares) {
        let total = bench.total(budget);
        assert_eq!(total.periods_missed(), 0);
        assert_eq!((total.periods_judged, total.periods_used_up), (10, 10));
        assert_eq!(total.least_ns, Some(share * MS));
    }
}

/// Who runs in the ms across a period's begin is planned before it, when all may have used their
/// share up. That ms is then idle and counts for the new period: shares that are all of it don't fit.
#[test]
fn shares_of_all_ten_ms() {
    let (bench, budgets) = always_working([4, 3, 3]);
    let missed = budgets.map(|budget| bench.total(budget).missed);
    let missed: Vec<_> = missed.into_iter().flatten().collect();
    let periods: u64 = missed.iter().map(|missed| missed.periods).sum();
    let ns: u64 = missed.iter().map(|missed| missed.ns).sum();
    let rows = Rows::new(&bench.timeline);
    let idle = rows.idle().expect("it has a row").total.ms_ran;
    assert_eq!((periods, ns, idle), (5, 5 * MS, 5));
    for number in rows.periods().skip(1) {
        let parts = rows.in_period(number);
        let missed = parts.values().any(|part| part.missed_ns > 0);
        let idle_at_first = bench.part("idle", number).doing[0] == Some(Doing::Runs);
        assert_eq!(missed, idle_at_first, "period {number}");
    }
}

/// A board on which thread 0 sleeps, and which one service has for itself. It is current at 9 ms.
fn alone(share_ms: u64) -> (Bench, ObjectId) {
    let mut bench = Bench::without_first();
    let one = bench.service(share_ms * MS);
    bench.plan(0);
    (bench, one)
}

fn outcomes(bench: &Bench, budget: ObjectId) -> Vec<Option<Outcome>> {
    let rows = Rows::new(&bench.timeline);
    let periods = rows
        .periods()
        .map(|number| bench.part(&label(budget), number));
    periods.map(|part| part.outcome).collect()
}

/// It sleeps in the middle of a period: nothing was missed, and nothing was used up.
#[test]
fn wanted_no_more() {
    let (mut bench, one) = alone(4);
    bench.tick(1..=9);
    bench.tick(10..=12);
    accepted(bench.board.block_current(Wait::Sleep(carv::Tick(25))));
    bench.plan(12);
    bench.tick(13..=24);
    bench.timeline.end(&bench.board);
    assert_eq!(
        outcomes(&bench, one),
        [None, Some(Outcome::WantedNoMore), None]
    );
    let part = bench.part(&label(one), 1);
    assert_eq!((part.wanted_ns, part.got_ns), (2 * MS, 2 * MS));
}

/// The last period has no outcome until it is said what came behind it, and none where a tick is
/// missing, before it or behind it.
#[test]
fn what_is_not_seen_has_no_outcome() {
    let (mut bench, one) = alone(4);
    bench.tick(0..=19);
    assert_eq!(outcomes(&bench, one), [Some(Outcome::UsedUp), None]);
    bench.timeline.end(&bench.board);
    assert_eq!(outcomes(&bench, one), [Some(Outcome::UsedUp); 2]);
    bench.tick(21..=39);
    bench.timeline.end(&bench.board);
    let expected = [Some(Outcome::UsedUp), None, None, Some(Outcome::UsedUp)];
    assert_eq!(outcomes(&bench, one), expected);
    let total = bench.total(one);
    assert_eq!((total.periods_on, total.periods_judged), (4, 2));
    assert_eq!(total.periods_partial, 1);
    // What was left at 39 ms is none of what came behind it, once there was another tick.
    bench.tick([45]);
    assert_eq!(outcomes(&bench, one)[3..], [None, None]);
    assert_eq!(bench.total(one).periods_judged, 1);
    assert_eq!(bench.thread_total(ThreadId(100 + one.0)).periods_judged, 1);
}

/// The same for a thread.
#[test]
fn what_is_not_seen_of_a_thread() {
    let (mut bench, one) = alone(4);
    let judged = |bench: &Bench| bench.thread_total(ThreadId(100 + one.0)).periods_judged;
    bench.tick(0..=19);
    assert_eq!(judged(&bench), 1);
    bench.timeline.end(&bench.board);
    assert_eq!(judged(&bench), 2);
    bench.tick(21..=39);
    bench.timeline.end(&bench.board);
    assert_eq!(judged(&bench), 2);
}

/// Whoever waits in the last ms missed the period, though it is switched off behind it.
#[test]
fn switched_off_at_the_end() {
    let mut bench = Bench::new();
    let one = bench.service(4 * MS);
    let thread = ThreadId(100 + one.0);
    for n in 0..=9 {
        bench.book(n);
    }
    bench.timeline.end(&bench.board);
    assert_eq!(bench.total(one).periods_missed(), 1);
    assert_eq!(bench.thread_total(thread).periods_missed(), 1);
    accepted(bench.board.kill(thread, Cause::Destroyed));
    accepted(bench.board.remove(one, carv::Nanoseconds(9 * MS)));
    bench.timeline.end(&bench.board);
    assert_eq!(bench.total(one).periods_missed(), 1);
    assert_eq!(bench.thread_total(thread).periods_missed(), 1);
}

/// A thread that ends in a period has no outcome there, though its budget has.
#[test]
fn a_thread_that_ends() {
    let mut bench = Bench::new();
    let one = bench.service(4 * MS);
    let thread = ThreadId(100 + one.0);
    bench.tick(0..=14);
    accepted(bench.board.kill(thread, Cause::Destroyed));
    bench.tick(15..=19);
    bench.timeline.end(&bench.board);
    assert_eq!(bench.total(one).periods_judged, 2);
    assert_eq!(bench.thread_total(thread).periods_judged, 1);
}

/// The budget of a thread is the one last seen, also if an id is taken again.
#[test]
fn an_id_that_is_taken_again() {
    let mut bench = Bench::new();
    let [one, two] = [4, 2].map(|ms| bench.budget(ms * MS));
    let thread = bench.thread(7, one);
    bench.tick(0..=14);
    accepted(bench.board.kill(thread, Cause::Destroyed));
    bench.plan(14);
    bench.thread(7, two);
    for ticks in [15..=19, 20..=29] {
        bench.tick(ticks);
        let threads = Threads::new(&bench.timeline);
        let found = threads.threads().iter().find(|seen| seen.id == thread);
        assert_eq!(found.and_then(|seen| seen.budget), Some(two));
    }
}

/// Of a period that was not seen as a whole nothing is the least.
#[test]
fn the_least_of_whole_periods() {
    let (mut bench, one) = alone(4);
    bench.tick(9..=29);
    let total = bench.total(one);
    assert_eq!(bench.part(&label(one), 0).got_ns, MS);
    assert_eq!((total.least_ns, total.periods_partial), (Some(4 * MS), 1));
}

/// What is left is asked with a renewal that is due, though no call made it.
#[test]
fn left_with_a_renewal_due() {
    let mut bench = Bench::new();
    let one = bench.service(4 * MS);
    accepted(bench.board.charge_cpu(one, 4 * MS, carv::Nanoseconds(0)));
    for n in 0..=19 {
        bench.book(n);
    }
    bench.timeline.end(&bench.board);
    let [first, second] = [0, 1].map(|number| bench.part(&label(one), number));
    assert_eq!(first.outcome, Some(Outcome::UsedUp));
    assert_eq!(
        (second.outcome, second.missed_ns),
        (Some(Outcome::Missed), 4 * MS)
    );
}

/// What is left at the period's last tick counts, whichever came last.
#[test]
fn left_at_the_last_tick() {
    let mut bench = Bench::new();
    let one = bench.service(4 * MS);
    for n in 1..=10 {
        bench.book(n);
    }
    accepted(bench.board.charge_cpu(one, 4 * MS, carv::Nanoseconds(0)));
    bench.book(0);
    assert_eq!(bench.part(&label(one), 0).missed_ns, 4 * MS);
}

/// Of budgets that share a row the worst outcome counts, and what each wanted and missed is summed.
#[test]
fn outcomes_of_a_row() {
    for order in [[0, 1], [1, 0]] {
        let mut bench = Bench::new();
        let shares = order.map(|at| [4 * MS, 3 * MS][at]);
        let budgets = shares.map(|share| bench.budget(share));
        // One waits all the time, the other is used up by the host and sleeps.
        let [waits, sleeps] = order.map(|at| budgets[at]);
        bench.thread(7, waits);
        bench.inactive(8, sleeps);
        accepted(bench.board.charge_cpu(sleeps, 3 * MS, carv::Nanoseconds(0)));
        for budget in budgets {
            bench.timeline.name(budget, "row");
        }
        for n in 0..=9 {
            bench.book(n);
        }
        bench.timeline.end(&bench.board);
        let part = bench.part("row", 0);
        assert_eq!(part.outcome, Some(Outcome::Missed), "{order:?}");
        assert_eq!((part.wanted_ns, part.missed_ns), (10 * MS, 4 * MS));
        assert_eq!(part.got_ns, 0);
    }
}

/// What one of a row got is none of what the other wanted.
#[test]
fn wanted_by_a_row() {
    let mut bench = Bench::without_first();
    let budgets = [2, 3].map(|ms| bench.service(ms * MS));
    for budget in budgets {
        bench.timeline.name(budget, "row");
    }
    bench.plan(0);
    bench.tick(0..=9);
    bench.timeline.end(&bench.board);
    let part = bench.part("row", 0);
    assert_eq!((part.outcome, part.got_ns), (Some(Outcome::UsedUp), 5 * MS));
    // Each has work in all ten ms.
    assert_eq!((part.wanted_ns, part.missed_ns), (20 * MS, 0));
}

/// A service that is switched off in a period has no outcome there; one that is switched on has.
#[test]
fn switched_on_and_off() {
    let (mut bench, one) = alone(4);
    bench.tick(0..=24);
    accepted(bench.board.kill(ThreadId(100 + one.0), Cause::Destroyed));
    bench.plan(24);
    accepted(bench.board.remove(one, carv::Nanoseconds(24 * MS)));
    bench.now_ns = 25 * MS;
    bench.tick(25..=34);
    bench.now_ns = 34 * MS;
    let two = bench.service(4 * MS);
    bench.plan(34);
    bench.tick(35..=49);
    bench.timeline.end(&bench.board);
    let used_up = Some(Outcome::UsedUp);
    assert_eq!(outcomes(&bench, one), [used_up, used_up, None, None, None]);
    assert_eq!(outcomes(&bench, two), [None, None, None, used_up, used_up]);
    assert_eq!(bench.total(one).periods_partial, 1);
    assert_eq!(bench.total(two).periods_partial, 1);
}

/// A budget that is live and has no thread yet wants nothing: that is an outcome, too.
#[test]
fn before_its_first_thread() {
    let mut bench = Bench::new();
    let one = bench.budget(4 * MS);
    bench.tick(0..=19);
    bench.thread(7, one);
    bench.tick([20]);
    let no_more = Some(Outcome::WantedNoMore);
    assert_eq!(outcomes(&bench, one), [no_more, no_more, None]);
}

/// Of two threads of one budget each is judged by what the budget has left.
#[test]
fn two_threads_of_a_budget() {
    let mut bench = Bench::without_first();
    let one = bench.budget(4 * MS);
    let threads = [7, 8].map(|id| bench.thread(id, one));
    bench.plan(0);
    bench.tick(0..=19);
    bench.timeline.end(&bench.board);
    assert_eq!(bench.total(one).periods_used_up, 2);
    for thread in threads {
        let total = bench.thread_total(thread);
        assert_eq!((total.periods_missed(), total.periods_used_up), (0, 2));
        assert_eq!(total.got_ns, 4 * MS);
    }
}

/// What the host charges counts as used: of a budget that has nothing left nothing is missed.
#[test]
fn charged_by_the_host() -> Result<(), Refusal> {
    let mut bench = Bench::new();
    let one = bench.service(4 * MS);
    bench.book(0);
    bench.board.charge_cpu(one, 3 * MS, carv::Nanoseconds(0))?;
    for n in 1..=9 {
        bench.book(n);
    }
    bench.timeline.end(&bench.board);
    let part = bench.part(&label(one), 0);
    assert_eq!((part.outcome, part.missed_ns), (Some(Outcome::Missed), MS));
    bench
        .board
        .charge_cpu(one, 4 * MS, carv::Nanoseconds(10 * MS))?;
    for n in 10..=19 {
        bench.book(n);
    }
    bench.timeline.end(&bench.board);
    let part = bench.part(&label(one), 1);
    assert_eq!((part.outcome, part.got_ns), (Some(Outcome::UsedUp), 0));
    Ok(())
}

/// A thread whose budget is gone is held back for good; it has no share to be judged by.
#[test]
fn a_budget_that_is_gone() {
    let mut bench = Bench::new();
    let [_, one, _] = [2, 4, 2].map(|ms| bench.service(ms * MS));
    accepted(bench.board.remove(one, carv::Nanoseconds(0)));
    bench.tick(0..=19);
    bench.timeline.end(&bench.board);
    let thread = ThreadId(100 + one.0);
    assert_eq!(
        bench.timeline.thread_doing(thread, 5),
        Some(Doing::HeldBack)
    );
    let total = bench.thread_total(thread);
    assert_eq!((total.periods_judged, total.periods_held_back), (0, 2));
    let wait = total.longest_wait.expect("it waits");
    assert_eq!((wait.ms, wait.held_back_ms, wait.ran), (20, 20, false));
}

/// A thread that runs on without its budget has no outcome, and the budget has none.
#[test]
fn who_runs_on_without_its_budget() {
    let mut bench = Bench::without_first();
    let one = bench.service(4 * MS);
    bench.plan(0);
    bench.book(0);
    accepted(bench.board.remove(one, carv::Nanoseconds(0)));
    for n in 1..=9 {
        bench.book(n);
    }
    bench.timeline.end(&bench.board);
    let thread = ThreadId(100 + one.0);
    assert_eq!(bench.timeline.thread_doing(thread, 9), Some(Doing::Runs));
    assert_eq!(bench.total(one).periods_judged, 0);
    assert_eq!(bench.thread_total(thread).periods_judged, 0);
}
