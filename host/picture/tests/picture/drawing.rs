//! What is drawn, also of hard cases.

use crate::bench::{Bench, MS, accepted};
use crate::xml;
use carv::{LAST_TICK, ObjectId};
use carv_picture::{Look, draw};
use carv_watch::{Rows, Timeline};
use std::path::Path;

/// Counting with 4 ms, two others with 3 ms each and thread 0, none ever sleeping: counting gets 2 or
/// 3 ms a period. So many ticks.
pub fn starving(ticks: u64) -> Bench {
    let mut bench = Bench::new();
    for (name, share) in [("counting", 4), ("display", 3), ("upload", 3)] {
        let budget = bench.service(share * MS);
        bench.timeline.name(budget, name);
    }
    bench.plan(0);
    bench.tick(1..=ticks);
    bench.timeline.end(&bench.board);
    bench
}

/// Draws a timeline, checks what holds of every picture, and keeps it to be looked at.
pub fn drawn(name: &str, timeline: &Timeline, from: Option<u64>) -> String {
    let look = Look {
        title: format!("Case: {name}"),
        subtitle: "Drawn by a test.".to_string(),
    };
    let svg = draw(timeline, &look, from);
    assert_eq!(xml::fault(&svg), None);
    assert!(svg.len() < 1_000_000, "{} bytes", svg.len());
    // Nothing is fetched from elsewhere: the only address is the name of the format.
    assert_eq!(svg.matches("http").count(), 1);
    let path = Path::new(env!("CARGO_TARGET_TMPDIR")).join(format!("{name}.svg"));
    std::fs::write(path, &svg).expect("there is a folder for it");
    svg
}

#[track_caller]
pub fn has(svg: &str, text: &str) {
    assert!(svg.contains(text), "{text} is missing");
}

#[test]
fn nothing_seen() {
    let svg = drawn("nothing", &Timeline::new(), None);
    has(&svg, ">No tick was seen.</text>");
    assert!(!svg.contains("What each got"));
}

#[test]
fn few_ticks() {
    let mut bench = Bench::without_first();
    let (one, two) = (bench.service(2 * MS), bench.service(MS));
    bench.timeline.name(one, "motor");
    bench.timeline.name(two, "lamp & <bell>");
    bench.plan(0);
    bench.tick(1..=5);
    let svg = drawn("few ticks", &bench.timeline, None);
    has(&svg, ">lamp &amp; &lt;bell&gt;</text>");
    has(&svg, "ticks 0 to 9");
    has(&svg, ">no tick seen</text>");
    has(&svg, ">2 of 2 ms</text>");
    has(&svg, "in 1 period</text>");
}

/// Where a text stands last.
fn place_of(svg: &str, text: &str) -> f64 {
    let text = format!(">{text}</text>");
    let (front, _) = svg.rsplit_once(&text).expect("the text");
    let (_, place) = front.rsplit_once("<text x=\"").expect("a place");
    let (place, _) = place.split_once('"').expect("its end");
    place.parse().expect("a number")
}

/// Behind a text of a legend there is room before the next sign, also in a font that is a sixth wider
/// than most.
#[test]
fn signs_keep_off_the_texts_before_them() {
    let svg = drawn("legend", &starving(35).timeline, None);
    const SIGN: f64 = 7.0 + 6.0;
    let (text, next) = (
        "shown above",
        "partial: on, or seen, for a part of the time",
    );
    let wide = text.len() as f64 * 11.0 * 0.53 * 7.0 / 6.0;
    let room = place_of(&svg, next) - place_of(&svg, text) - wide - SIGN;
    assert!(room >= 10.0, "{room}");
}

/// Who starves ran least, and is drawn nevertheless.
#[test]
fn many_budgets_and_one_that_starves() {
    let mut bench = Bench::without_first();
    let budgets: Vec<ObjectId> = (0..29).map(|_| bench.service(MS / 10)).collect();
    bench.plan(0);
    for n in 1..=29 {
        bench.book(n);
        bench.block();
        bench.plan(n);
    }
    let first = carv::ThreadId(100 + budgets[0].0);
    accepted(bench.board.wake(first, [0; 3]));
    bench.plan(29);
    let starving = bench.service(MS);
    bench.timeline.name(starving, "starving");
    // Nobody plans, so the first goes on running.
    (30..=50).for_each(|n| bench.book(n));
    let svg = drawn("one of many starves", &bench.timeline, Some(30));
    has(&svg, ">starving</text>");
    has(
        &svg,
        "Budgets not drawn, which ran less or missed nothing: 7. ",
    );
}

/// Thirty budgets: 23 and idle are drawn, those that ran most.
#[test]
fn many_budgets() {
    let mut bench = Bench::without_first();
    for place in 1..=30 {
        let budget = bench.service(place * 20_000);
        bench.timeline.name(budget, &format!("service {place}"));
    }
    bench.plan(0);
    bench.tick(1..=3_000);
    for n in (0..3_000).step_by(100) {
        bench.timeline.event(n, format!("event at {n}"));
    }
    let svg = drawn("many budgets", &bench.timeline, Some(2_500));
    for place in 1..=30 {
        let name = format!(">service {place}</text>");
        assert_eq!(svg.contains(&name), place > 7, "{name}");
    }
    let rows = Rows::new(&bench.timeline);
    let rest = (1..=7).filter_map(|place| rows.budget(&format!("service {place}")));
    let missed: u64 = rest.map(|row| row.total.periods_missed()).sum();
    assert_eq!(missed, 1_400);
    has(
        &svg,
        "Budgets not drawn, which ran less: 7. Together they got 56 ms, and missed 1,400 periods.",
    );
    has(&svg, "Events not listed: 10.");
    // The event in the window is listed, rather than the twentieth.
    has(&svg, ">event at 2500</text>");
    assert!(!svg.contains(">event at 1900</text>"));
}

/// Of most budgets, in every column of every row a bar, a mark and another share, and many events. Of
/// some ticks nothing is seen.
fn largest(name: &str, is_seen: fn(u64) -> bool) -> String {
    let mut bench = Bench::without_first();
    let budgets: Vec<ObjectId> = (0..24).map(|_| bench.service(400_000)).collect();
    for (place, budget) in budgets.iter().enumerate() {
        let name = format!("a name that is far too long {place}");
        bench.timeline.name(*budget, &name);
    }
    bench.plan(0);
    let mut children: Vec<ObjectId> = Vec::new();
    for n in 1..9_000 {
        if n % 10 == 0 {
            bench.now_ns = n * MS;
            for child in children.drain(..) {
                accepted(bench.board.remove(child, carv::Nanoseconds(bench.now_ns)));
            }
            let reserved = n / 10 % 7 * 1_000;
            children.extend(
                budgets
                    .iter()
                    .map(|budget| bench.budget_of(*budget, reserved)),
            );
        }
        if is_seen(n) {
            bench.tick([n]);
        }
        bench.timeline.event(n, "x".repeat(1_000));
    }
    drawn(name, &bench.timeline, Some(8_900))
}

/// The most that a picture holds.
#[test]
fn the_largest() {
    largest("largest", |_| true);
}

/// The same, with least and most of each bar, all marks, and partial periods.
#[test]
fn the_largest_with_partial_periods() {
    let svg = largest("largest, partial", |n| n % 30 != 13);
    for class in ["average partial", "most partial", "stem partial", "missed"] {
        let paths = svg.matches(&format!("class=\"{class}\"")).count();
        assert!(paths >= 22, "{paths} rows have {class}");
    }
}

#[test]
fn many_ticks() {
    let mut bench = Bench::without_first();
    for share in [4 * MS, 3 * MS, 1_500_000, 300_000] {
        bench.service(share);
    }
    bench.plan(0);
    for n in 1..=100_000 {
        bench.tick([n]);
        if n == 30_000 {
            accepted(
                bench
                    .board
                    .charge_cpu(ObjectId(2), 1, carv::Nanoseconds(n * MS)),
            );
        }
    }
    bench.timeline.event(30_000, "something".to_string());
    let svg = drawn("many ticks", &bench.timeline, Some(50_000));
    has(&svg, "in 10,001 periods, a bar for every 34</text>");
    has(&svg, ">share 0.3 ms</text>");
}

#[test]
fn the_last_ticks() {
    let mut bench = Bench::new();
    bench.service(3 * MS);
    bench.tick(LAST_TICK - 60..=LAST_TICK - 50);
    bench.block();
    bench.plan(LAST_TICK - 50);
    bench.tick(LAST_TICK - 49..=LAST_TICK);
    bench.timeline.event(LAST_TICK, "the last tick".to_string());
    let svg = drawn("last ticks", &bench.timeline, None);
    has(
        &svg,
        "ticks 18,446,744,073,640 to 18,446,744,073,709</text>",
    );
    has(&svg, ">+60 ms</text>");
}

#[test]
fn gaps_and_repeats() {
    let mut bench = Bench::without_first();
    let one = bench.service(3 * MS);
    bench.service(2 * MS);
    bench.plan(0);
    bench.tick(1..=23);
    bench.tick([57, 58, 20, 21, 22]);
    bench.tick((1_000..1_100).step_by(3));
    bench.tick([9_000_000_000, LAST_TICK]);
    bench
        .timeline
        .event(500, "where no tick was seen".to_string());
    bench
        .timeline
        .event(u64::MAX, "after all ticks".to_string());
    bench.timeline.name(one, "a\u{1}b");
    let svg = drawn("gaps", &bench.timeline, None);
    has(&svg, ">time left out</text>");
    has(&svg, "periods without any tick are left out: 4.");
    has(&svg, "Ticks whose number was seen before: 3.");
    has(&svg, ">a\u{fffd}b</text>");
    // The axis of all periods names the first ticks of some, also of one that is not shown ms by ms.
    has(&svg, ">1,080 ms</text>");
}

/// `from` names the first period shown; where it wasn't seen, the next; past all, the last.
#[test]
fn from() {
    let mut bench = Bench::new();
    bench.tick((1..500).chain(900..950));
    let shown = |from| draw(&bench.timeline, &Look::default(), from);
    for (from, ticks) in [
        (None, "ticks 0 to 99<"),
        (Some(0), "ticks 0 to 99<"),
        (Some(129), "ticks 120 to 219<"),
        (Some(777), "ticks 900 to 949<"),
        (Some(930), "ticks 930 to 949<"),
        (Some(u64::MAX), "ticks 940 to 949<"),
    ] {
        has(&shown(from), ticks);
    }
}

/// A share of nothing is drawn too, and a budget that goes.
#[test]
fn a_share_of_nothing() {
    let mut bench = Bench::without_first();
    let one = bench.service(0);
    bench.plan(0);
    bench.tick(1..=40);
    accepted(
        bench
            .board
            .kill(carv::ThreadId(100 + one.0), carv::Cause::Destroyed),
    );
    accepted(bench.board.remove(one, carv::Nanoseconds(40 * MS)));
    bench.tick(41..=80);
    let svg = drawn("no share", &bench.timeline, None);
    has(&svg, ">share 0 ms</text>");
    has(&svg, ">0 of 0 ms</text>");
}
