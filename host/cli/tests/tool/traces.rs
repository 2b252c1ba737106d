//! Traces for Perfetto and chrome://tracing. What is in them is tested in `carv_trace`.

use crate::{ANSWERS, EXAMPLE, carv, lines, scratch, spawn, text};
use std::path::Path;

/// The trace in a file, which must be whole.
fn trace(path: &Path) -> String {
    let trace = std::fs::read_to_string(path).expect("a trace");
    assert!(trace.starts_with("{\"traceEvents\":[\n{\"ph\":"));
    assert!(trace.ends_with("}}\n"), "{trace}");
    assert!(trace.contains("\n],\"displayTimeUnit\":\"ms\",\"otherData\":{"));
    trace
}

/// The trace has the list's lines, calls and names; what the tool prints is as without it.
#[test]
fn a_trace_is_written() {
    let path = scratch("first.json");
    let ran = carv(&["replay", "--trace", text(&path)], EXAMPLE);
    let without = carv(&["replay"], EXAMPLE);
    assert_eq!((ran.status, ran.out.as_str()), (3, ANSWERS));
    assert_eq!(ran.err, without.err);
    let trace = trace(&path);
    for part in [
        r#""ts":0,"dur":1000,"name":"Running""#,
        r#""ts":4000,"dur":6000,"name":"held back""#,
        r#""name":"counting: thread 4""#,
        r#""name":"CPU left: bag printer (budget 3)","args":{"ms":2}"#,
        r#""line":53,"call":"remove 3 10000000""#,
        r#""meaning":"the budget to be removed pays for something""#,
        r#""calls":42,"refused":2,"#,
    ] {
        assert!(trace.contains(part), "{part}");
    }
}

/// A report writes the same one.
#[test]
fn a_report_writes_one() {
    let (of_replay, of_report) = (scratch("of-replay.json"), scratch("of-report.json"));
    carv(&["replay", "--trace", text(&of_replay)], EXAMPLE);
    let ran = carv(&["report", "--trace", text(&of_report)], EXAMPLE);
    assert_eq!((ran.status, ran.err.as_str()), (3, ""));
    assert_eq!(trace(&of_report), trace(&of_replay));
}

#[test]
fn a_bad_line_ends_it() {
    let path = scratch("bad.json");
    let list = lines(&["open 10_000_000 1", "tick 1", "tock", "tick 2"]);
    let ran = carv(&["replay", "--trace", text(&path)], &list);
    assert_eq!(ran.status, 4);
    let trace = trace(&path);
    assert!(trace.contains(r#""ts":0,"dur":1000,"name":"Running""#));
    assert!(trace.contains(r#""name":"process_name","args":{"name":"board"}"#));
}

/// It goes on with the board of `--board`.
#[test]
fn a_kept_board_goes_on() {
    let (board, path) = (scratch("traced.board"), scratch("kept.json"));
    let first = carv(&["replay", "--silent", "--keep", text(&board)], EXAMPLE);
    assert_eq!(first.status, 3);
    let list = lines(&["name 1 all", "tick 21"]);
    let arguments = ["replay", "--board", text(&board), "--trace", text(&path)];
    assert_eq!(carv(&arguments, &list).status, 0);
    let trace = trace(&path);
    for part in [
        r#""ts":20000,"dur":1000,"name":"Dead, still current""#,
        // The names that were kept with it, and those that this list gives.
        r#""name":"counting: thread 4""#,
        r#""name":"CPU left: counting (budget 2)""#,
        r#""name":"CPU left: all (budget 1)""#,
    ] {
        assert!(trace.contains(part), "{part}: {trace}");
    }
}

/// If the reader of the answers goes away, the other calls are made for the trace.
#[test]
fn nobody_reads_the_answers() {
    let path = scratch("closed.json");
    let ticks: String = (1..=20_000).map(|n| format!("tick {n}\n")).collect();
    let list = format!("open 10_000_000 1\n{ticks}");
    let (mut child, writer) = spawn(&["replay", "--trace", text(&path)], list.as_bytes());
    drop(child.stdout.take());
    let status = child.wait().expect("the tool ends");
    writer.join().expect("the list is written");
    assert_eq!(status.code(), Some(0));
    assert!(trace(&path).contains(r#""ts":0,"dur":20000000,"name":"Running""#));
}

#[test]
fn where_it_can_t_be_written() {
    let path = scratch("no-folder").join("first.json");
    let ran = carv(&["replay", "--trace", text(&path)], EXAMPLE);
    assert_eq!((ran.status, ran.out.as_str()), (1, ""));
    assert!(ran.err.starts_with("carv: the trace "), "{}", ran.err);
    assert!(ran.err.contains("can't be written: "), "{}", ran.err);
}
