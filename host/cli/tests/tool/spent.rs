//! What was spent, at the end of the summary.

use crate::{EXAMPLE, carv, lines, scratch, text};

const OPEN: &str = "open 10_000_000 1_000_000";

/// P2's story, with a removal at this time, and what the root spends then.
fn story(removal: &str, spends: &str) -> String {
    let remove = format!("remove 2 {removal}");
    let spend = format!("charge_cpu root {spends} 10_000_000");
    lines(&[
        OPEN,
        "create_budget root 4_000_000 0 0",
        "name 2 bag printer",
        "charge_cpu 2 4_000_000 10_000_000",
        &remove,
        &spend,
    ])
}

/// The lines behind the counts: those that tell what was spent.
fn told(list: &str) -> String {
    let ran = carv(&["replay", "--silent"], list);
    let (_, told) = ran.err.split_once("bad lines").expect("the counts");
    told.to_string()
}

#[test]
fn of_the_example() {
    let ran = carv(&["replay", "--silent"], EXAMPLE);
    let expected = "
  no period of 10 ms overspent, by any budget with all below it.
    The most in a period: 5 ms of 10 ms by root, from 0 ms; 3 ms of 4 ms by counting, from 0 ms; 2
    ms of 2 ms by bag printer, from 0 ms.
";
    assert!(ran.err.ends_with(expected), "{}", ran.err);
}

/// The removed budget's time counts for the root; both have spent all of their share.
#[test]
fn a_removed_budget_s_time_counts() {
    let expected = "
  no period of 10 ms overspent, by any budget with all below it.
    The most in a period: 10 ms of 10 ms by root, from 10 ms; 4 ms of 4 ms by bag printer, from 10
    ms.
";
    assert_eq!(told(&story("10_000_000", "6_000_000")), expected);
}

#[test]
fn a_clock_that_fell() {
    let expected = "
  the clock fell at line 5, from 10 ms to 0 ms: it is not guaranteed that no period is overspent.
  OVERSPENT: root with all below it, 14 ms of its 10 ms in the period from 10 ms.
    The most in a period: 14 ms of 10 ms by root, from 10 ms; 4 ms of 4 ms by bag printer, from 10
    ms.
";
    assert_eq!(told(&story("0", "10_000_000")), expected);
    // It may fall without anything being overspent.
    let told = told(&story("0", "6_000_000"));
    assert!(told.starts_with("\n  the clock fell at line 5, "), "{told}");
    assert!(
        told.contains("\n  no period of 10 ms overspent, "),
        "{told}"
    );
}

/// Refused with another number than 12, a call's time doesn't count; with 12 it does.
#[test]
fn refused_calls() {
    let list = |charge: &str| lines(&[OPEN, "refill root 20_000_000", charge]);
    let missing = carv(
        &["replay", "--silent", "--json"],
        &list("charge_cpu 9 1 5_000_000"),
    );
    let fall = "{\"line\":3,\"from_ns\":20000000,\"to_ns\":5000000}";
    let expected = format!("\"clock_fell\":null,\"any_clock_fell\":{fall},");
    assert!(missing.out.contains(&expected), "{}", missing.out);
    let too_much = carv(
        &["replay", "--silent", "--json"],
        &list("charge_cpu root 10_000_001 5_000_000"),
    );
    let expected = format!("\"clock_fell\":{fall},\"any_clock_fell\":{fall},");
    assert!(too_much.out.contains(&expected), "{}", too_much.out);
    // A time above 2^64 - 1 isn't there.
    let late = carv(
        &["replay", "--silent", "--json"],
        &lines(&[OPEN, "tick 18_446_744_073_710", "tick 5"]),
    );
    let expected = "\"any_clock_fell\":{\"line\":3,\"from_ns\":null,\"to_ns\":5000000},";
    assert!(late.out.contains(expected), "{}", late.out);
}

/// A board that is opened later in the list has a ledger of its own, and the summary says so.
#[test]
fn a_second_opening() {
    let first = story("0", "10_000_000");
    let again = lines(&[OPEN, "charge_cpu root 5 0"]);
    let count = first.lines().count() + 1;
    let told = told(&(first.clone() + &again));
    let expected =
        format!("\n  from the opening at line {count} on:\n  no period of 10 ms overspent, ");
    assert!(told.starts_with(&expected), "{told}");
    let ran = carv(&["replay", "--silent", "--json"], &(first + &again));
    let expected = format!("{{\"spent\":{{\"opened_line\":{count},\"overspent\":null,");
    assert!(ran.out.starts_with(&expected), "{}", ran.out);
}

#[test]
fn as_json() {
    let ran = carv(&["replay", "--silent", "--json"], &story("0", "10_000_000"));
    let expected = "{\"spent\":{\"opened_line\":1,\"overspent\":{\"id\":1,\"spent_ns\":14000000,\"cpu_ns\":10000000,\"period_start_ns\":10000000},\"clock_fell\":{\"line\":5,\"from_ns\":10000000,\"to_ns\":0},\"any_clock_fell\":{\"line\":5,\"from_ns\":10000000,\"to_ns\":0},\"budgets\":[{\"id\":1,\"name\":\"root\",\"parent\":1,\"cpu_ns\":10000000,\"most_ns\":14000000,\"period_start_ns\":10000000},{\"id\":2,\"name\":\"bag printer\",\"parent\":1,\"cpu_ns\":4000000,\"most_ns\":4000000,\"period_start_ns\":10000000}]}}";
    assert_eq!(ran.out.lines().next(), Some(expected));
    assert_eq!(ran.out.lines().count(), 2);
    assert_eq!(ran.status, 0, "what was spent changes no exit status");
    let dumped = carv(&["replay", "--silent", "--json", "--dump"], OPEN).out;
    let objects = ["{\"board\":{", "{\"spent\":{", "{\"summary\":{"];
    assert_eq!(dumped.lines().count(), objects.len());
    for (line, object) in dumped.lines().zip(objects) {
        assert!(line.starts_with(object), "{line}");
    }
    // Budgets that were never charged are there too, each with its parent.
    let carve = "create_budget root 4_000_000 1_000 0";
    let below = "create_budget 2 1_000_000 0 0";
    let list = lines(&[OPEN, carve, below, "charge_cpu 3 5 0", carve]);
    let ran = carv(&["replay", "--silent", "--json"], &list);
    let expected = "{\"id\":2,\"name\":null,\"parent\":1,\"cpu_ns\":4000000,\"most_ns\":5,\"period_start_ns\":0},{\"id\":3,\"name\":null,\"parent\":2,\"cpu_ns\":1000000,\"most_ns\":5,\"period_start_ns\":0},{\"id\":4,\"name\":null,\"parent\":1,\"cpu_ns\":4000000,\"most_ns\":0,\"period_start_ns\":null}]}}\n";
    assert!(ran.out.contains(expected), "{}", ran.out);
    let idle = carv(&["replay", "--silent", "--json"], OPEN);
    let part = "\"most_ns\":0,\"period_start_ns\":null}]}}\n";
    assert!(idle.out.contains(part), "{}", idle.out);
}

/// Of a board whose past isn't known nothing is said; the list's own openings start anew.
#[test]
fn boards_that_the_list_did_not_open() {
    let kept = scratch("spent.board");
    let arguments = ["replay", "--silent", "--keep", text(&kept)];
    carv(&arguments, &story("0", "10_000_000"));
    let on = |options: &[&str], list| {
        let board = ["replay", "--silent", "--board", text(&kept)];
        carv(&[&board, options].concat(), list)
    };
    let charge = "charge_cpu root 1 20_000_000\n";
    let counts = "1 line, 1 call: 1 accepted, 0 refused; 0 bad lines\n";
    assert_eq!(on(&[], charge).err, counts);
    assert!(!on(&["--json"], charge).out.contains("\"spent\""));
    let again = format!("{charge}{OPEN}\ncharge_cpu root 5 0\n");
    let told = on(&[], &again).err;
    let expected = "The most in a period: 0.000005 ms of 10 ms by root, from 0 ms.\n";
    assert!(told.ends_with(expected), "{told}");
    let refused = carv(&["replay", "--silent"], "open 10_000_001 0");
    assert!(!refused.err.contains("overspent"), "{}", refused.err);
}

/// Help has the fields of the object.
#[test]
fn help_has_the_fields() {
    let help = carv(&["help", "json"], "").out;
    let (_, help) = help.split_once("{\"spent\":").expect("the object");
    let (help, _) = help.split_once("--dump").expect("what follows");
    let ran = carv(&["replay", "--silent", "--json"], &story("0", "10_000_000"));
    let first = ran.out.lines().next().expect("what was spent");
    for field in first.split('"').skip(1).step_by(2) {
        let is_value = ["spent", "root", "bag printer"].contains(&field);
        assert!(is_value || help.contains(field), "{field}");
    }
    assert!(carv(&["help", "replay"], "").out.contains("isn't known"));
}
