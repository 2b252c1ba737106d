//! `board charges`: what fixes a run, what it prints, and how it ends.

mod common;

use carv_board_host::charges::{Law, charges, only};
use common::{Run, run};

fn board(arguments: &str) -> Run {
    run(env!("CARGO_BIN_EXE_board"), arguments)
}

#[test]
fn seed_and_count_fix_a_run() {
    let [first, again] = [4, 4].map(|seed| charges(100, seed));
    assert!(first.is_ok());
    assert_eq!(first, again);
    assert_ne!(first, charges(100, 5));
    assert_ne!(first, only(&[Law::Undo], 100, 4));
}

#[test]
fn a_report_is_printed() {
    let run = board("charges 100 3");
    assert_eq!(run.status, Some(0));
    let lines: Vec<&str> = run.out.lines().collect();
    let first = ["law", "accepted", "refused", "unsound"];
    assert!(lines[0].split_whitespace().eq(first), "{}", lines[0]);
    for part in [
        "\na and b against a + b  ",
        "\none payer, the order mattered  ",
    ] {
        assert!(run.out.contains(part), "{part}: {}", run.out);
    }
    let calls = charges(100, 3).map(|report| report.calls());
    let last = format!("{} calls, 0 differences", calls.expect("no difference"));
    assert_eq!(lines.last(), Some(&&last[..]));
}

#[test]
fn wrong_arguments_end_with_2() {
    for (arguments, part) in [
        ("charges", "`charges` or `spent` with their numbers"),
        ("charges 1", "`charges` or `spent` with their numbers"),
        ("charges many 1", "COUNT must be a number"),
    ] {
        let run = board(arguments);
        assert_eq!(run.status, Some(2), "{arguments}");
        assert!(run.err.contains(part), "{arguments}: {}", run.err);
    }
}

/// The gate makes every comparison that the program offers.
#[test]
fn the_gate_runs_each_command() {
    let gate = include_str!("../../../.ci/compare");
    for command in ["random", "short", "damaged", "charges", "spent"] {
        let line = format!("\nhost/target/release/board {command} ");
        assert!(gate.contains(&line), "{command}");
        assert!(
            board("--help").out.contains(&format!(" board {command} ")),
            "{command}"
        );
    }
}
