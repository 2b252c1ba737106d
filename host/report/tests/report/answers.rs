//! The answer in one line, and the short form.

use crate::run::{OPEN, Run, service};
use carv_report::Short;

/// A board on which thread 0 sleeps, with services of these shares in ms.
fn services(shares: &[u64]) -> Run {
    let mut run = Run::of(&[OPEN, "block_current notification 1"]);
    for (place, share) in (0..).zip(shares) {
        let (budget, thread) = (place + 2, place + 100);
        let name = (b'a' + place as u8) as char;
        for line in [
            format!("create_budget root {} 0 0", share * 1_000_000),
            format!("name {budget} {name}"),
            format!("create_user_thread {thread} {budget} 1"),
            format!("start {thread}"),
        ] {
            assert_eq!(run.line(&line), 0, "{line}");
        }
    }
    assert_eq!(run.line("plan 0"), 0);
    run
}

fn answer(run: &mut Run, name: &str) -> String {
    service(&run.report(), name).answer()
}

/// Always at work with a ms to spare: each period is used up, and none is missed.
#[test]
fn used_up() {
    let mut run = services(&[4, 3]);
    run.ticks(1..=39);
    assert_eq!(
        answer(&mut run, "a"),
        "a: used up its 4 ms in all 3 periods, missed none"
    );
    assert_eq!(
        answer(&mut run, "b"),
        "b: used up its 3 ms in all 3 periods, missed none"
    );
}

/// It sleeps after a ms of work: it got what it wanted, and its share was never used up.
#[test]
fn wanted_no_more() {
    let mut run = services(&[4]);
    for period in 0..4 {
        run.ticks([period * 10 + 1]);
        assert_eq!(
            run.line(&format!("block_current sleep {}", period * 10 + 10)),
            0
        );
        assert_eq!(run.line(&format!("plan {}", period * 10 + 1)), 0);
        run.ticks(period * 10 + 2..period * 10 + 11);
    }
    let got = "a: got what it wanted of its 4 ms in all 3 periods, never used up";
    assert_eq!(answer(&mut run, "a"), got);
    // It goes on without sleep: now all of it is used up.
    run.ticks(41..=59);
    let mixed = "a: got what it wanted of its 4 ms in all 5 periods (2 used up, 3 wanted no more)";
    assert_eq!(answer(&mut run, "a"), mixed);
    let report = run.report();
    let total = service(&report, "a").figures.total;
    assert_eq!(
        total.periods_used_up + total.periods_wanted_no_more,
        total.periods_judged
    );
}

#[test]
fn wanted_nothing() {
    let mut run = services(&[4]);
    assert_eq!(run.line("block_current notification 2"), 0);
    assert_eq!(run.line("plan 0"), 0);
    run.ticks(1..=29);
    assert_eq!(answer(&mut run, "a"), "a: wanted nothing in all 2 periods");
    let mut run = services(&[4]);
    run.ticks(1..=8);
    assert_eq!(
        answer(&mut run, "a"),
        "a: seen in no whole period, so nothing can be said"
    );
}

/// Two that fill all ten ms: the ms across a period's begin is idle, and one of them misses it.
#[test]
fn missed() {
    let mut run = services(&[4, 6]);
    run.ticks(1..=59);
    let report = run.report();
    let missed: u64 = report
        .services
        .iter()
        .map(|it| it.figures.total.periods_missed())
        .sum();
    assert!(missed > 0);
    let short = report.short();
    assert!(
        short.services[0].1.total.missed.is_some(),
        "those that missed come first"
    );
    let text = short.text();
    assert!(
        text.starts_with("  b: MISSED 2 of 5 periods; first and worst from 20 ms (5 of 6 ms)"),
        "{text}"
    );
    assert!(
        text.ends_with("\n  MISSED: wanted more than it got although it had time\n"),
        "{text}"
    );
    assert_eq!(
        Short::new(&run.watch).text(),
        text,
        "the timeline alone says as much"
    );
}

/// At most eight answers, those that missed first, and how many more there are.
#[test]
fn many_services() {
    let mut run = services(&[0, 0, 0, 0, 0, 0, 0, 0, 0, 4, 6]);
    run.ticks(1..=59);
    let text = run.report().short().text();
    assert!(text.starts_with("  k: MISSED 2 of 5 periods; "), "{text}");
    assert_eq!(text.lines().count(), 10, "{text}");
    assert!(
        text.contains("\n  3 services more, none of which missed a period\n"),
        "{text}"
    );
    // One that came late was seen in no whole period.
    for line in [
        "create_budget root 0 0 59_000_000",
        "create_user_thread 200 13 1",
        "start 200",
    ] {
        assert_eq!(run.line(line), 0);
    }
    run.ticks([60]);
    let text = run.report().short().text();
    assert!(
        text.contains("\n  1 service seen in no whole period, so nothing can be said\n"),
        "{text}"
    );
    let json = run.report().short().json().to_string();
    assert_eq!(json.matches("\"name\":").count(), 12, "JSON has all");
}

/// Names of any length and kind leave the text in lines of 100 characters.
#[test]
fn lines_of_the_text() {
    let mut run = services(&[4, 6]);
    run.ticks(1..=59);
    let long = "a service with a long name, of which no more than the beginning stands in tables";
    run.watch.name(carv::ObjectId(2), long);
    run.watch.name(carv::ObjectId(3), "two\nlines");
    let text = run.report().text();
    assert!(
        text.lines().all(|line| line.chars().count() <= 100),
        "{text}"
    );
    assert!(text.contains("  two?lines: MISSED "), "{text}");
    assert!(text.contains("  a service with …  "), "{text}");
}
