//! Where times stand: labels, events, ms and periods.

use crate::bench::{Bench, MS};
use crate::drawing::{drawn, has};
use crate::panel::{Panel, label};
use crate::reading::{circles, texts, uprights};

/// Positions are written with one decimal.
const NEAR: f64 = 0.11;

#[track_caller]
fn near(one: f64, two: f64) {
    assert!((one - two).abs() < NEAR, "{one} and {two}");
}

/// A service that runs in the first ms of each period, for so many ticks.
fn board(ticks: impl IntoIterator<Item = u64>) -> Bench {
    let mut bench = Bench::without_first();
    let budget = bench.service(MS);
    bench.timeline.name(budget, "counting");
    bench.plan(0);
    bench.tick(ticks);
    bench
}

/// Where the event of a number is, in the window if it is there and in the summary.
fn event(svg: &str, number: usize) -> Vec<f64> {
    let places = texts(svg, &number.to_string());
    let bubbles = circles(svg);
    let mut lines: Vec<f64> = Vec::new();
    for (x, y) in places {
        let is_bubble = |bubble: &&(f64, f64)| bubble.0 == x && (y - bubble.1 - 4.0).abs() < NEAR;
        let line = uprights(svg)
            .into_iter()
            .find(|line| line.0 == x && line.2 > line.1 + 20.0);
        if bubbles.iter().any(|bubble| is_bubble(&bubble)) && line.is_some() {
            lines.push(x);
        }
    }
    lines
}

/// An event at a tick stands where the label of its time does, in both plots; the ms that the tick
/// ends is left of it, and begins its period's band.
#[test]
fn labels_and_events() {
    let mut bench = board(1..=3_000);
    bench.timeline.event(2_000, "something".to_string());
    let svg = drawn("times", &bench.timeline, Some(2_000));
    let [window, summary] = event(&svg, 1)[..] else {
        panic!("two lines");
    };
    near(window, label(&svg, 0, 2_000));
    near(summary, label(&svg, 1, 2_000));
    let ms = (label(&svg, 0, 2_010) - window) / 10.0;
    let rules = uprights(&svg);
    assert!(
        rules.iter().any(|(x, ..)| (x - (window - ms)).abs() < NEAR),
        "the band begins a ms before"
    );
    // Below the time stands a short line.
    assert!(
        rules
            .iter()
            .any(|(x, from, to)| *x == window && to - from == 6.0)
    );
}

/// A ms in which something runs lies between the time of the tick before and its own.
#[test]
fn a_ms_ends_at_its_tick() {
    // Tick 1 of each ten ends the ms in which the service runs.
    let bench = board(1..=99);
    let svg = drawn("one ms", &bench.timeline, None);
    let [window, summary] = Panel::both(&svg, 0, 20);
    let runs = window.shapes("counting", &["runs"]);
    assert_eq!(runs.len(), 10);
    for (number, cell) in (0..).zip(&runs) {
        near(window.time(cell.left), f64::from(number) * 10.0);
        let right = window.time(cell.right);
        let end = f64::from(number) * 10.0 + 1.0;
        assert!(end - 0.12 < right && right <= end + 0.02, "{right}");
    }
    // A bar stands for the ms that are booked in its period: from 9 to 19 ms, from 19 to 29 ms ..
    let bars = summary.shapes("counting", &["least"]);
    assert_eq!(summary.periods("counting", &["least"])[..3], [1, 2, 3]);
    for (number, bar) in (1..9).zip(&bars) {
        let middle = f64::from(number) * 10.0 + 4.0;
        let between_bars = 0.1;
        let apart = summary.time(bar.left) - middle;
        assert!(apart.abs() < between_bars, "{apart} in period {number}");
    }
}

/// What was before the first tick stands at 0 ms, or at the left edge where the picture begins later.
#[test]
fn before_the_first_tick() {
    let mut bench = board(1..=99);
    bench.timeline.event(0, "refused".to_string());
    bench.timeline.event(1, "at the first".to_string());
    let svg = drawn("early event", &bench.timeline, None);
    has(&svg, ">before the first tick</text>");
    let zero = [0, 1].map(|which| label(&svg, which, 0));
    let [window, summary] = event(&svg, 1)[..] else {
        panic!("two lines");
    };
    near(window, zero[0]);
    near(summary, zero[1]);
    let ms = (label(&svg, 0, 10) - zero[0]) / 10.0;
    near(event(&svg, 2)[0], zero[0] + ms);
    assert_eq!(texts(&svg, "1 ms").len(), 1, "in the list");

    let mut bench = board(1_000..=1_999);
    bench.timeline.event(0, "refused".to_string());
    let svg = drawn("early event, late ticks", &bench.timeline, None);
    has(&svg, ">before the first tick</text>");
    assert!(!svg.contains(">0 ms</text>"));
    let edge = uprights(&svg)
        .into_iter()
        .map(|(x, ..)| x)
        .fold(f64::MAX, f64::min);
    let lines = event(&svg, 1);
    assert_eq!(lines.len(), 2);
    lines.into_iter().for_each(|x| near(x, edge));

    // Where the window begins later it isn't in it.
    let svg = drawn("early event, late window", &bench.timeline, Some(1_500));
    assert_eq!(event(&svg, 1).len(), 1);
}

/// Where tick 0 was seen, an event of that time is at 0 ms.
#[test]
fn at_tick_0() {
    let mut bench = board(0..=99);
    bench.timeline.event(0, "something".to_string());
    let svg = drawn("tick 0", &bench.timeline, None);
    assert!(!svg.contains("before the first tick"));
    let lines = event(&svg, 1);
    near(lines[0], label(&svg, 0, 0));
    near(lines[1], label(&svg, 1, 0));
    assert_eq!(texts(&svg, "0 ms").len(), 3, "two axes, and the list");
}

/// Lines of later events don't cross the numbers of those before: in each plot they come first.
#[test]
fn numbers_are_not_crossed() {
    let mut bench = board(1..=99);
    for text in ["one", "two", "three"] {
        bench.timeline.event(50, text.to_string());
    }
    let svg = drawn("three events", &bench.timeline, None);
    let mut kinds: Vec<&str> = Vec::new();
    for line in svg.lines() {
        let kind = match line {
            _ if line.starts_with("<line") && line.contains("stroke-width=\"0.8\"") => "line",
            _ if line.starts_with("<circle") && line.contains("r=\"8\"") => "number",
            _ => continue,
        };
        kinds.push(kind);
    }
    assert_eq!(kinds.len(), 3 * 5, "in both plots, and numbers in the list");
    kinds.dedup();
    assert_eq!(kinds, ["line", "number", "line", "number"]);
}
