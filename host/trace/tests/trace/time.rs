//! Clocks that fall and leap, and boards that are opened again.

use crate::traced;
use carv_trace::LEAP_NS;

#[test]
fn a_clock_that_falls() {
    let trace = traced(&[
        "open 10_000_000 1_000",
        "tick 10",
        "block_current recv 1",
        "tick 4",
        "plan 4",
        "tick 6",
        "refill root 500",
        "tick 1",
    ])
    .trace;
    assert_eq!(
        trace.told("thread 0"),
        ["Running 0-10", "Blocked: recv 10-12.9995"]
    );
    assert_eq!(trace.told("idle"), ["Running 10-12.9995"]);
    assert_eq!(
        trace.happened(),
        [
            "board opened",
            "the clock fell from 10 to 4 ms",
            "the clock fell from 6 to 0.0005 ms",
        ]
    );
    let fall = &trace.instants[1];
    assert_eq!(fall.args.get("line").map(|it| it.whole()), Some(4));
    assert_eq!(trace.about["clock_falls"].whole(), 2);
}

#[test]
fn a_clock_that_leaps() {
    let trace = traced(&[
        "open 10_000_000 1_000",
        "tick 1",
        "tick 10001",
        "tick 20002",
        "tick 18446744073709",
        "tick 0",
        "block_current recv 1",
        "plan 1",
    ])
    .trace;
    assert_eq!(LEAP_NS, 10_000_000_000);
    assert_eq!(
        trace.told("thread 0"),
        [
            "Running 0-30,001",
            "Blocked: recv, still current 30,001-30,002"
        ]
    );
    assert_eq!(
        trace.happened(),
        [
            "board opened",
            "the clock leapt from 10001 to 20002 ms",
            "the clock leapt from 20002 to 18446744073709 ms",
            "the clock fell from 18446744073709 to 0 ms",
        ]
    );
    assert_eq!(trace.about["clock_leaps"].whole(), 2);
}

/// The first time is drawn as it is.
#[test]
fn a_list_that_begins_late() {
    let trace = traced(&["open 10_000_000 1_000", "tick 3_600_000", "tick 3_600_001"]).trace;
    assert_eq!(trace.told("thread 0"), ["Running 0-3,600,001"]);
    assert_eq!(trace.happened(), ["board opened"]);
}

/// The second board is drawn behind the first, its time from 0 on.
#[test]
fn a_board_that_is_opened_again() {
    let trace = traced(&[
        "open 10_000_000 1_000_000",
        "create_budget root 1_000_000 40_000 0",
        "create_user_thread 7 2 1",
        "tick 5",
        "open 10_000_000 2_000",
        "tick 2",
    ])
    .trace;
    assert_eq!(trace.told("thread 0"), ["Running 0-7"]);
    assert_eq!(trace.told("budget 2: thread 7"), ["Inactive 0-5"]);
    assert_eq!(trace.samples("CPU left: budget 2"), ["1 at 0", "0 at 5"]);
    assert_eq!(
        trace.samples("CPU left: root (budget 1)"),
        ["9 at 0", "10 at 5"]
    );
    assert_eq!(trace.happened().last(), Some(&"board opened"));
    assert_eq!(trace.about["clock_falls"].whole(), 0);
}
