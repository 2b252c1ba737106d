//! Refusals by number, and for whom they count.

use crate::run::{OPEN, Run, budget, thread};
use carv_report::Refusals;

fn counts(refusals: &Refusals) -> Vec<(u64, u64)> {
    let counts = refusals.iter();
    counts
        .map(|(refusal, count)| (refusal.number(), count))
        .collect()
}

fn run() -> Run {
    let mut run = Run::of(&[
        OPEN,
        "create_budget root 4_000_000 10_000 0",
        "insert irq 2 100",
        "create_user_thread 9 2 1",
        "start 9",
    ]);
    for (line, number) in [
        // Payer, parent, id.
        ("insert irq 2 99_999", 12),
        ("create frame 2 0", 14),
        ("create_budget 2 9_000_000 0 0", 12),
        ("remove 2 0", 10),
        ("charge_cpu 2 9_000_000 0", 12),
        ("remove root 0", 9),
        // An object that budget 2 pays for.
        ("uncharge 3 101", 11),
        ("account 3", 7),
        // A thread, and a thread with a budget.
        ("start 9", 8),
        ("wake 9 1 2 3", 8),
        ("kill 9 7", 4),
        ("create_user_thread 9 2 1", 5),
        ("create_user_thread 9 77 1", 5),
        // Nobody that is live, or idle alone.
        ("charge_of 77", 7),
        ("kill 77 destroyed", 7),
        ("create_user_thread 8 77 0", 14),
        ("kill idle destroyed", 5),
        ("tick 99_999_999_999_999", 3),
        ("block_current 9 9", 4),
        ("open 10_000_001 0", 2),
    ] {
        assert_eq!(run.line(line), number, "{line}");
    }
    run
}

#[test]
fn by_number_for_those_named() {
    let report = run().report();
    assert_eq!(counts(&budget(&report, 1).refusals), [(9, 1)]);
    let expected = [(5, 1), (7, 1), (10, 1), (11, 1), (12, 3), (14, 1)];
    assert_eq!(counts(&budget(&report, 2).refusals), expected);
    assert_eq!(
        counts(&thread(&report, 9).refusals),
        [(4, 1), (5, 2), (8, 2)]
    );
    assert_eq!(counts(&thread(&report, 0).refusals), []);
    let nobody = counts(&report.board.refusals_of_nobody);
    assert_eq!(nobody, [(2, 1), (3, 1), (4, 1), (5, 1), (7, 2), (14, 1)]);
    assert_eq!(report.board.refusals.total(), 20, "each once");
    assert_eq!(report.board.refusals.with(12), 3);
    assert_eq!(report.board.accepted, 5);
}

/// What is removed is live no more.
#[test]
fn of_those_that_are_gone() {
    let mut run = run();
    for line in ["remove 3 0", "remove 2 0", "kill 9 destroyed"] {
        assert_eq!(run.line(line), 0, "{line}");
    }
    let before = run.report();
    assert_eq!(run.line("account 2"), 7);
    assert_eq!(run.line("kill 9 destroyed"), 7);
    let report = run.report();
    for report in [&before, &report] {
        assert_eq!(budget(report, 2).refusals.total(), 8);
        assert_eq!(thread(report, 9).refusals.total(), 5);
    }
    let nobody = |report: &carv_report::Report| report.board.refusals_of_nobody.with(7);
    assert_eq!((nobody(&before), nobody(&report)), (2, 4));
}

/// In text, JSON and CSV, with the meanings.
#[test]
fn told() {
    let report = run().report();
    let text = report.text();
    assert!(text.contains("  refused with 9, 1 time: the root budget can't be removed\n"));
    assert!(text.contains("1 with 5, 1 with 7, 1 with 10, 1 with 11, 3 with 12, 1 with 14\n"));
    let nobody = "name nobody live: 1 with 2, 1 with 3, 1 with 4, 1 with 5, 2 with 7, 1 with 14\n";
    let text = text.replace("\n    ", " ");
    assert!(text.contains(nobody), "{text}");
    let json = report.json().to_string();
    let meaning = "the root budget can't be removed";
    let root = format!("\"refusals\":[{{\"number\":9,\"count\":1,\"meaning\":\"{meaning}\"}}]");
    assert!(json.contains(&root), "{json}");
    let csv = report.csv();
    let line = |row: &str| {
        let mut lines = csv.split("\r\n");
        lines.find(|line| line.starts_with(row)).expect("a row")
    };
    assert!(line("budget,2").ends_with(",8,0,0,0,0,1,0,1,0,0,1,1,3,0,1"));
    assert!(line("nobody").ends_with(",7,0,1,1,1,1,0,2,0,0,0,0,0,0,1"));
    assert!(line("board").contains(",5,20,0,1,1,2,3,0,"));
}
