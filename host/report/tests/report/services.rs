//! Services whose budgets come and go.

use crate::run::{MS, OPEN, Run, budget, service};

/// The bag printer is switched on for two periods, off for two, and on again.
fn off_and_on() -> Run {
    let mut run = Run::of(&[
        OPEN,
        "block_current notification 1",
        "create_budget root 4_000_000 40_000 0",
        "name 2 bag printer",
        "insert thread 2 33_792",
        "create_user_thread 3 2 1",
        "start 3",
        "plan 0",
    ]);
    run.ticks(1..=29);
    for line in [
        "kill 3 destroyed",
        "plan 29",
        "remove 3 29_000_000",
        "remove 2 29_000_000",
    ] {
        assert_eq!(run.line(line), 0, "{line}");
    }
    run.ticks(30..=49);
    for line in [
        "create_budget root 2_000_000 50_000 49_000_000",
        "name 4 bag printer",
        "insert thread 4 40_000",
        "create_user_thread 5 4 1",
        "start 5",
        "plan 49",
        "account 2",
    ] {
        run.line(line);
    }
    run.ticks(50..=79);
    run
}

#[test]
fn off_and_on_again() {
    let mut run = off_and_on();
    let report = run.report();
    assert_eq!(report.services.len(), 1);
    let printer = service(&report, "bag printer");
    let ids: Vec<u64> = printer.budgets.iter().map(|id| id.0).collect();
    assert_eq!(ids, [2, 4]);
    let (first, second) = (budget(&report, 2), budget(&report, 4));
    assert!(!first.is_live && second.is_live);
    assert_eq!((first.totals, second.totals.is_some()), (None, true));
    let of = |row: &carv_report::BudgetRow| row.figures.expect("it had a thread").total;
    let (one, two, both) = (of(first), of(second), printer.figures.total);
    assert_eq!(both.got_ns, one.got_ns + two.got_ns);
    assert_eq!(both.ms_on, one.ms_on + two.ms_on);
    assert_eq!(
        both.periods_used_up,
        one.periods_used_up + two.periods_used_up
    );
    assert_eq!(both.shares_ns, Some((2 * MS, 4 * MS)));
    assert_eq!(printer.renewals, first.renewals + second.renewals);
    assert_eq!(
        (printer.memory.limit, printer.memory.most),
        (50_000, 40_000)
    );
    assert_eq!(printer.spent, first.spent, "4 ms are more than 2");
    // Whole periods at whose end it was on: 1 and 2, then 5 to 7.
    assert_eq!((one.periods_judged, two.periods_judged), (2, 3));
    assert_eq!((both.periods_judged, both.periods_missed()), (5, 0));
    assert_eq!(
        printer.answer(),
        "bag printer: used up its 2 to 4 ms in all 5 periods, missed none"
    );
}

/// Each by its id, and once more as one service, in all three forms.
#[test]
fn told_apart_and_together() {
    let mut run = off_and_on();
    let report = run.report();
    let text = report.text();
    for part in [
        "\n      2  bag printer",
        "\n      4  bag printer",
        "\n  all 2  bag printer",
    ] {
        assert!(text.contains(part), "{part:?} in {text}");
    }
    let json = report.json().to_string();
    assert!(json.contains("\"name\":\"bag printer\",\"budgets\":[2,4],\"answer\":"));
    let csv = report.csv();
    assert!(csv.contains("\r\nservice,,bag printer,2 4,,,,"), "{csv}");
    assert!(csv.contains("\r\nbudget,2,bag printer,,1,,false,"), "{csv}");
    assert!(csv.contains("\r\nbudget,4,bag printer,,1,,true,"), "{csv}");
    // Of services with one budget each the text has no line beside that of the budget.
    let mut alone = Run::of(&[OPEN, "create_budget root 1 0 0", "create_user_thread 9 2 1"]);
    alone.ticks(1..=19);
    let report = alone.report();
    assert_eq!(report.services[0].name, "budget 2");
    assert!(!report.text().contains("all 1"), "{}", report.text());
}

/// A budget that never has a thread is no service, and joins one if it has its name.
#[test]
fn without_a_thread() {
    let mut run = off_and_on();
    run.line("create_budget root 1_000_000 0 79_000_000");
    run.line("create_budget root 1_000_000 0 79_000_000");
    run.line("name 7 bag printer");
    run.ticks(80..=99);
    let report = run.report();
    assert_eq!(report.services.len(), 1);
    let ids: Vec<u64> = report.services[0].budgets.iter().map(|id| id.0).collect();
    assert_eq!(ids, [2, 4, 7]);
    let bare = budget(&report, 6);
    assert!(bare.figures.is_none());
    assert_eq!((bare.shares_ns, bare.cpu_ns), (Some((MS, MS)), MS));
}

/// Of several budgets of one name that spent as much, the first counts.
#[test]
fn spent_as_much() {
    let mut run = Run::of(&[
        OPEN,
        "create_budget root 2_000_000 0 0",
        "create_budget root 2_000_000 0 0",
        "name 2 gate",
        "name 3 gate",
        "create_user_thread 70 2 1",
        "start 70",
        "charge_cpu 2 1_000 0",
        "charge_cpu 3 1_000 10_000_000",
        "tick 11",
    ]);
    let report = run.report();
    let spent = service(&report, "gate").spent.expect("it is known");
    assert_eq!((spent.most_ns, spent.start_ns), (1_000, Some(0)));
}
