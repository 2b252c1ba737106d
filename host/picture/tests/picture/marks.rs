//! The marks of how a period went, and of partial periods.

use crate::bench::{Bench, MS, accepted};
use crate::drawing::{drawn, has, starving};
use crate::panel::Panel;
use crate::reading::Extent;
use carv::{Cause, ObjectId, ThreadId};
use carv_watch::{Kind, Outcome, Part, Rows, Timeline};

/// The periods of a row that are so.
fn periods(timeline: &Timeline, name: &str, is_so: impl Fn(&Part) -> bool) -> Vec<u64> {
    let rows = Rows::new(timeline);
    let row = rows.rows().iter().position(|row| row.name == name);
    let row = row.expect("there is such a row");
    let so = |number: &u64| rows.in_period(*number).get(&row).is_some_and(&is_so);
    rows.periods().filter(so).collect()
}

/// Compares the marks of all rows, in both plots, with what was seen.
#[track_caller]
fn marked_as_seen(svg: &str, timeline: &Timeline, panels: &[Panel<'_>]) {
    let rows = Rows::new(timeline);
    let shown = svg.split("ticks ").nth(1).expect("a heading");
    let last = shown.split("</text>").next().expect("it ends");
    let last = last.split(" to ").nth(1).expect("the last tick");
    let last: u64 = last.replace(',', "").parse().expect("a number");
    let budgets = rows.rows().iter().filter(|row| row.kind == Kind::Budget);
    for (which, panel) in panels.iter().enumerate() {
        for row in budgets.clone() {
            let compare = |class: &str, is_so: &dyn Fn(&Part) -> bool| {
                let mut expected = periods(timeline, &row.name, is_so);
                expected.retain(|number| which == 1 || number * 10 <= last);
                let found = panel.periods(&row.name, &[class]);
                assert_eq!(found, expected, "{class}, {}, plot {which}", row.name);
            };
            compare("missed", &|part| part.outcome == Some(Outcome::Missed));
            compare("held-back", &|part| part.held_back);
            compare("used-up", &|part| {
                part.held_back || part.outcome == Some(Outcome::UsedUp)
            });
        }
    }
}

/// Each period that counting missed has a triangle in both plots, and the row says so.
#[test]
fn missed_periods() {
    let bench = starving(109);
    let svg = drawn("starving", &bench.timeline, None);
    let panels = Panel::both(&svg, 0, 20);
    assert_eq!(
        panels[0].periods("counting", &["missed"]),
        (1..=9).collect::<Vec<_>>()
    );
    assert_eq!(
        panels[1].periods("counting", &["missed"]),
        (1..=10).collect::<Vec<_>>()
    );
    assert!(panels[1].periods("counting", &["used-up"]).is_empty());
    marked_as_seen(&svg, &bench.timeline, &panels);
    has(&svg, ">missed: wanted more than it got, had time</text>");
    has(&svg, ">missed 9 of 9 periods</text>");
    has(&svg, ">missed 10 of 10 periods</text>");
    has(&svg, ">first and worst at 10 ms (by 2 ms)</text>");
    has(&svg, ">longest wait 3 ms</text>");
}

/// Of a share the window tells apart what was got, what was missed and what wasn't wanted.
#[test]
fn what_was_missed_of_a_share() {
    let bench = starving(109);
    let svg = drawn("starving", &bench.timeline, None);
    let [window, _] = Panel::both(&svg, 0, 20);
    let missed = window.shapes("counting", &["missed-part"]);
    let parts = periods(&bench.timeline, "counting", |part| part.missed_ns > 0);
    assert_eq!((missed.len(), parts.len()), (9, 10));
    for (shape, number) in missed.iter().zip(parts) {
        let rows = Rows::new(&bench.timeline);
        let part = rows.in_period(number)[&0];
        let begin = number as f64 * 10.0 - 1.0;
        let (got, missed) = (part.got_ns / MS, part.missed_ns / MS);
        let expected = begin + got as f64;
        assert!((window.time(shape.left) - expected).abs() < 0.03);
        let width = window.time(shape.right) - window.time(shape.left);
        assert!((width - missed as f64).abs() < 0.03, "{width}");
    }
}

/// Services that are held back, that use their share up and want no more, and that sleep.
#[test]
fn the_other_outcomes() {
    let mut bench = Bench::without_first();
    let budgets = ["busy", "done", "asleep"].map(|name| {
        let budget = bench.service(2 * MS);
        bench.timeline.name(budget, name);
        budget
    });
    bench.plan(0);
    for n in 1..=99 {
        bench.book(n);
        let current = accepted(bench.board.current());
        let slept = |budget: ObjectId| current == ThreadId(100 + budget.0);
        let is_done = slept(budgets[1]) && n % 10 == 5;
        if is_done || slept(budgets[2]) {
            accepted(
                bench
                    .board
                    .block_current(carv::Wait::Sleep(carv::Tick(n / 10 * 10 + 10))),
            );
        }
        bench.plan(n);
    }
    bench.timeline.end(&bench.board);
    let svg = drawn("outcomes", &bench.timeline, None);
    let panels = Panel::both(&svg, 20, 40);
    marked_as_seen(&svg, &bench.timeline, &panels);
    let held = |name: &str| panels[1].periods(name, &["held-back"]).len();
    let used = |name: &str| panels[1].periods(name, &["used-up"]).len();
    assert_eq!((held("busy"), held("done"), held("asleep")), (10, 0, 0));
    assert!(used("done") > 5, "{} used up", used("done"));
    assert_eq!(used("asleep"), 0);
    has(&svg, ">missed none of 9 periods</text>");
}

/// One missed period among a hundred thousand ticks is seen: the bar's least, and a triangle.
#[test]
fn one_bad_period_of_many() {
    const BAD: u64 = 5_000;
    let mut bench = Bench::without_first();
    let budget = bench.service(4 * MS);
    bench.timeline.name(budget, "counting");
    bench.plan(0);
    for n in 0..100_000 {
        bench.book(n);
        // In the bad period nothing is planned, so idle goes on.
        if n + 1 < BAD * 10 || n >= BAD * 10 + 9 {
            bench.plan(n);
        }
    }
    bench.timeline.end(&bench.board);
    assert_eq!(
        periods(&bench.timeline, "counting", |part| part.missed_ns > 0),
        [BAD]
    );
    let svg = drawn("one bad period", &bench.timeline, Some(BAD * 10));
    has(&svg, "a bar for every 34</text>");
    has(&svg, ">missed 1 of 10,000 periods</text>");
    has(&svg, ">first and worst at 50,000 ms (by 4 ms)</text>");
    let summary = Panel::summary(&svg, 20_000, 40_000);
    let bar = |class: &str| bar_of(&summary, class, BAD);
    assert_eq!(bar("least"), None, "nothing was got at least");
    let (average, most) = (bar("average"), bar("most"));
    let (average, most) = (average.expect("a bar"), most.expect("a range"));
    let part = average.height() / (average.height() + most.height());
    assert!((part - 33.0 / 34.0).abs() < 0.01, "{part} of the share");
    assert_eq!(most.bottom, average.top);
    let next = bar_of(&summary, "least", BAD + 34).expect("a bar");
    assert_eq!((next.top, next.bottom), (most.top, average.bottom));
    let triangles = summary.shapes("counting", &["missed"]);
    assert_eq!(triangles.len(), 1);
    let triangle = triangles[0];
    let width = triangle.right - triangle.left;
    assert!(triangle.height() > 3.9 && width > 6.0, "{triangle:?}");
    let middle = (triangle.left + triangle.right) / 2.0;
    let apart = (middle - average.left).abs();
    assert!(apart < 0.2, "{apart} from its bar");
}

/// The bar of counting in which this period is.
fn bar_of(summary: &Panel<'_>, class: &str, number: u64) -> Option<Extent> {
    const BAR: f64 = 340.0;
    let bars = summary.shapes("counting", &[class]);
    let begin = (number / 34 * 340) as f64 - 1.0;
    let mut found = bars.into_iter().filter(|bar| {
        let time = summary.time(bar.left);
        (begin..begin + BAR).contains(&time)
    });
    let bar = found.next();
    assert_eq!(found.next(), None);
    bar
}

/// Where a bar stands for several periods, marks say how often: counting misses each period, the others
/// miss every other and use their share up in the rest.
#[test]
fn how_often() {
    const BARS: usize = 273;
    let bench = starving(30_000);
    let svg = drawn("starving long", &bench.timeline, Some(10_000));
    has(&svg, "in 3,001 periods, a bar for every 11</text>");
    has(
        &svg,
        ">how often missed: wanted more than it got, had time</text>",
    );
    let summary = Panel::summary(&svg, 10_000, 20_000);
    let heights = |row: &str, class: &str| {
        let shapes = summary.shapes(row, &[class]);
        assert_eq!(shapes.len(), BARS, "{row}, {class}");
        let heights: f64 = shapes.iter().map(|shape| shape.height()).sum();
        heights / BARS as f64
    };
    let (always, half) = (heights("counting", "missed"), heights("display", "missed"));
    assert!((always - 6.5).abs() < 0.1, "{always}");
    assert!((5.1..5.4).contains(&half), "{half}");
    assert!((3.6..3.9).contains(&heights("display", "held-back")));
    assert!(summary.shapes("counting", &["held-back"]).is_empty());
    // Triangles and blocks of a row don't overlap.
    let lowest = |class: &str| summary.shapes("display", &[class]);
    let triangles = lowest("missed").into_iter().map(|shape| shape.bottom);
    let blocks = lowest("held-back").into_iter().map(|shape| shape.top);
    assert!(triangles.fold(f64::MIN, f64::max) < blocks.fold(f64::MAX, f64::min));
}

/// The first and the last period, and those in which a service comes and goes.
#[test]
fn partial_periods() {
    let mut bench = Bench::without_first();
    let one = bench.service(3 * MS);
    bench.timeline.name(one, "counting");
    bench.plan(0);
    bench.tick(3..=24);
    bench.now_ns = 24 * MS;
    let two = bench.service(3 * MS);
    bench.timeline.name(two, "printer");
    bench.plan(24);
    bench.tick(25..=52);
    accepted(bench.board.kill(ThreadId(100 + two.0), Cause::Destroyed));
    bench.plan(52);
    accepted(bench.board.remove(two, carv::Nanoseconds(52 * MS)));
    bench.tick(53..=77);
    bench.timeline.end(&bench.board);
    let svg = drawn("partial", &bench.timeline, None);
    let panels = Panel::both(&svg, 20, 40);
    let [window, summary] = &panels;
    assert_eq!(window.periods("counting", &["share", "partial"]), [0, 7]);
    assert_eq!(window.periods("printer", &["share", "partial"]), [2, 5]);
    assert_eq!(summary.periods("counting", &["least", "partial"]), [0, 7]);
    assert_eq!(summary.periods("printer", &["least", "partial"]), [2, 5]);
    // Of thread 0 and idle the periods are partial of which ticks are missing.
    assert_eq!(summary.periods("idle", &["stem", "partial"]), [0, 7]);
    assert_eq!(
        svg.matches(">partial: on, or seen, for a part of the time<")
            .count(),
        2
    );
    marked_as_seen(&svg, &bench.timeline, &panels);
}

/// Where all periods are whole nothing is striped.
#[test]
fn no_partial_period() {
    let mut bench = Bench::without_first();
    bench.service(3 * MS);
    bench.plan(0);
    bench.tick(0..=49);
    let svg = drawn("whole", &bench.timeline, None);
    assert!(!svg.contains("partial"));
}

/// A bar of several periods is striped where the service was off in some of them.
#[test]
fn off_in_some_periods_of_a_bar() {
    let mut bench = Bench::without_first();
    let one = bench.service(3 * MS);
    bench.timeline.name(one, "counting");
    bench.plan(0);
    bench.tick(0..=3_009);
    accepted(bench.board.kill(ThreadId(100 + one.0), Cause::Destroyed));
    bench.plan(3_009);
    accepted(bench.board.remove(one, carv::Nanoseconds(3_009 * MS)));
    bench.tick(3_010..=6_009);
    let svg = drawn("off in some", &bench.timeline, None);
    has(&svg, "in 601 periods, a bar for every 3</text>");
    let summary = Panel::summary(&svg, 2_000, 4_000);
    let striped = summary.periods("counting", &["least", "partial"]);
    assert_eq!(striped.len(), 1);
    assert!((300..303).contains(&striped[0]), "{striped:?}");
}

/// A partial period in which nothing was got is marked too.
#[test]
fn partial_and_nothing_got() {
    let mut bench = Bench::without_first();
    bench.tick(0..=14);
    bench.now_ns = 14 * MS;
    let budget = bench.budget(3 * MS);
    bench.inactive(7, budget);
    bench.timeline.name(budget, "asleep");
    bench.tick(15..=49);
    let svg = drawn("partial asleep", &bench.timeline, None);
    let [window, summary] = Panel::both(&svg, 20, 40);
    assert_eq!(window.periods("asleep", &["share", "partial"]), [1]);
    assert_eq!(summary.periods("asleep", &["stem", "partial"]), [1]);
}

/// A share of all ten ms leaves no room behind it: the mark stays in its period.
#[test]
fn a_share_of_all_time() {
    let mut bench = Bench::new();
    let budget = bench.service(10 * MS);
    bench.timeline.name(budget, "counting");
    bench.tick(1..=99);
    bench.timeline.end(&bench.board);
    let svg = drawn("a share of all time", &bench.timeline, None);
    let panels = Panel::both(&svg, 0, 20);
    marked_as_seen(&svg, &bench.timeline, &panels);
    assert_eq!(panels[0].shapes("counting", &["missed"]).len(), 9);
}
