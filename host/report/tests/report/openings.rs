//! Boards that are opened often, never, or before.

use crate::run::{OPEN, Run, budget, service};

const SERVICE: [&str; 4] = [
    "create_budget root 4_000_000 40_000 0",
    "create_user_thread 9 2 1",
    "start 9",
    "plan 0",
];

fn opened() -> Run {
    let mut run = Run::of(&["name 2 counting", OPEN]);
    for line in SERVICE {
        assert_eq!(run.line(line), 0);
    }
    run
}

/// From the last opening on, and it says so; ids begin anew, and names stay.
#[test]
fn the_last_opening_counts() {
    let mut run = opened();
    run.ticks(1..=59);
    assert_eq!(run.line("remove root 0"), 9);
    assert_eq!(run.line(OPEN), 0);
    for line in SERVICE {
        assert_eq!(run.line(line), 0);
    }
    run.ticks(1..=29);
    // A refused one leaves all.
    assert_eq!(run.line("open 10_000_001 0"), 2);
    let report = run.report();
    let mut again = opened();
    again.ticks(1..=29);
    let once = again.report();
    assert_eq!(
        service(&report, "counting").figures,
        service(&once, "counting").figures
    );
    let (board, of_once) = (&report.board, &once.board);
    assert_eq!((board.periods, board.ticks_seen), (of_once.periods, 29));
    assert_eq!(
        (board.ticks_repeated, board.accepted),
        (0, of_once.accepted)
    );
    assert_eq!((board.openings, board.opened), (2, Some(126)));
    assert_eq!(board.clock_fell, None, "the clock begins anew");
    assert_eq!(board.refusals.total(), 1, "those before are not counted");
    assert_eq!(budget(&report, 1).refusals.total(), 0);
    assert_eq!(budget(&report, 2).renewals, budget(&once, 2).renewals);
    assert!(
        report
            .text()
            .starts_with("From the last of 2 openings on, at line 126:\n\n")
    );
    assert!(once.text().starts_with("Did each service get its share "));
    assert!(
        report
            .json()
            .to_string()
            .contains("\"opened_line\":126,\"openings\":2,")
    );
}

#[test]
fn no_opening_and_no_tick() {
    let mut run = Run::of(&["current", "tick 1"]);
    let report = run.report();
    assert!(report.budgets.is_empty() && report.threads.is_empty());
    assert_eq!(report.board.refusals.with(1), 2);
    let text = report.text();
    assert!(text.contains("No service was seen"), "{text}");
    assert!(text.contains("No board was opened"), "{text}");
    assert!(text.contains("no tick was accepted"), "{text}");
    let mut run = opened();
    let report = run.report();
    assert!(report.services.is_empty());
    assert_eq!(report.budgets.len(), 2);
    assert_eq!(budget(&report, 2).shares_ns, None);
    let text = report.text();
    assert!(text.contains("  no tick was accepted\n"), "{text}");
    assert!(text.contains("counting"), "{text}");
    assert_eq!(report.short().text(), "");
    // Nor is there anything to say without a call.
    let report = Run::new().report();
    assert!(report.budgets.is_empty());
    assert_eq!(report.board.accepted, 0);
}

/// Of a board with a past its budgets are there, but not what was spent.
#[test]
fn a_board_that_was_open_before() {
    let mut before = opened();
    before.ticks(1..=15);
    let mut run = Run::on(before.board.clone());
    run.line("name 2 counting");
    run.ticks(16..=39);
    let report = run.report();
    let counting = budget(&report, 2);
    assert_eq!((counting.spent, report.board.knows_spent), (None, false));
    assert_eq!(counting.memory.limit, 40_000);
    let total = service(&report, "counting").figures.total;
    assert_eq!((total.periods_on, total.periods_judged), (3, 2));
    assert_eq!((report.board.opened, report.board.openings), (None, 0));
    assert!(report.text().contains("what was spent isn't known"));
    assert!(report.json().to_string().contains("\"spent_known\":false,"));
    // Renewals are those since: at 20 and 30 ms.
    assert_eq!(counting.renewals, 2);
}

/// Ticks that are missing, come again, and fall.
#[test]
fn clocks_that_fall() {
    let mut run = opened();
    run.ticks((1..=19).chain(25..=34).chain([40, 30, 31]));
    let report = run.report();
    let board = &report.board;
    assert_eq!((board.ticks_seen, board.ticks_missing), (30, 10));
    assert_eq!((board.gaps, board.ticks_repeated), (2, 2));
    let fell = board.clock_fell.expect("it fell");
    assert_eq!((fell.from, fell.to), (40_000_000, 30_000_000));
    let text = report.text();
    assert!(text.contains(
        "ticks 1 to 40: 30 seen, 10 missing in 2 gaps, 2 came again; 1 of 5 periods whole"
    ));
    assert!(text.contains("the clock fell at line "), "{text}");
    assert!(
        report
            .json()
            .to_string()
            .contains("\"from_ns\":40000000,\"to_ns\":30000000")
    );
}
