//! `board_bench`: what it prints, and how it ends.

mod common;

use common::{Run, run};

fn bench(arguments: &str) -> Run {
    run(env!("CARGO_BIN_EXE_board_bench"), arguments)
}

#[test]
fn help_is_printed() {
    let run = bench("--help");
    assert_eq!(run.status, Some(0));
    assert!(run.out.contains("board_bench [PART...] [OBJECTS...]"));
}

#[test]
fn wrong_arguments_end_with_2() {
    for argument in ["cals", "15", "513"] {
        let run = bench(argument);
        assert_eq!(run.status, Some(2), "{argument}");
        let said = run.err;
        assert!(
            said.contains(&format!("`{argument}` is neither a PART")),
            "{said}"
        );
    }
}

/// The model is slow.
#[cfg(not(feature = "mock"))]
#[test]
fn every_call_is_timed() {
    use carv_compare::board::call::Op;

    let run = bench("calls");
    assert_eq!(run.status, Some(0));
    let printed = run.out;
    for part in ["- processor: ", "- built with: rustc ", "libcarv.a, "] {
        assert!(printed.contains(part), "{part}");
    }
    let (_, glance) = printed.split_once("at a glance").expect("the last table");
    // The Rust lacks totals.
    let ops = Op::ALL.iter().filter(|op| **op != Op::Totals);
    let names = ops.map(|op| op.name()).chain(["image"]);
    for name in names {
        assert!(glance.contains(name), "{name}");
    }
    assert!(printed.contains("| dense     | totals  "), "{printed}");
    assert!(!glance.contains("totals"), "{glance}");
}

/// A call asks question 1 first, so it can't take much less.
#[cfg(not(feature = "mock"))]
#[test]
fn totals_are_timed_beside_question_1() {
    let run = bench("totals");
    assert_eq!(run.status, Some(0));
    let rows = run.out.lines().filter(|line| {
        let ids = ["| dense     |", "| gaps      |", "| far apart |"];
        ids.iter().any(|ids| line.contains(ids))
    });
    let ratios = rows.map(|row| {
        let ratio = row.trim_end_matches(" |").rsplit(' ').next();
        ratio.and_then(|ratio| ratio.parse::<f64>().ok())
    });
    let ratios: Vec<f64> = ratios.map(|ratio| ratio.expect("a ratio")).collect();
    assert_eq!(ratios.len(), 7, "{}", run.out);
    // Totals ask question 1 of this board themselves, and go once over its rows.
    let likely = ratios.iter().all(|ratio| *ratio > 1.05 && *ratio < 6.0);
    assert!(likely, "{ratios:?}");
    assert!(run.out.contains("\nThe highest ratio is "), "{}", run.out);
}
