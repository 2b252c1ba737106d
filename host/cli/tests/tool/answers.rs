//! Answers of calls, in text and as JSON.

use crate::{ANSWERS, EXAMPLE, carv, lines};

#[test]
fn the_example_has_the_answers_beside_it() {
    let ran = carv(&["replay"], EXAMPLE);
    assert_eq!(ran.out, ANSWERS);
    assert_eq!(ran.status, 3);
    assert!(
        ran.err.contains(": 40 accepted, 2 refused; 0 bad lines\n"),
        "{}",
        ran.err
    );
    assert_eq!(carv(&["replay", "-"], EXAMPLE).out, ANSWERS);
    let file = concat!(env!("CARGO_MANIFEST_DIR"), "/examples/first.calls");
    assert_eq!(carv(&["replay", file], "").out, ANSWERS);
}

/// Each call, accepted.
const CALLS: [(&str, &str); 27] = [
    (
        "open 10_000_000 100_000",
        "[10000000,100000],\"number\":0,\"answer\":{}",
    ),
    ("is_sound", "[],\"number\":0,\"answer\":{\"sound\":true}"),
    (
        "create_budget root 4000000 8192 0",
        "[1,4000000,8192,0],\"number\":0,\"answer\":{\"id\":2}",
    ),
    (
        "create frame 2 1",
        "[3,2,1],\"number\":0,\"answer\":{\"id\":3}",
    ),
    (
        "insert irq root 7",
        "[8,1,7],\"number\":0,\"answer\":{\"id\":4}",
    ),
    ("charge_more 4 3", "[4,3],\"number\":0,\"answer\":{}"),
    ("uncharge 4 1", "[4,1],\"number\":0,\"answer\":{}"),
    (
        "charge_of 4",
        "[4],\"number\":0,\"answer\":{\"payer\":1,\"bytes\":9}",
    ),
    ("remove 4 0", "[4,0],\"number\":0,\"answer\":{}"),
    (
        "refill 2 9999999",
        "[2,9999999],\"number\":0,\"answer\":{\"renewed\":false}",
    ),
    (
        "charge_cpu 2 1000000 0",
        "[2,1000000,0],\"number\":0,\"answer\":{}",
    ),
    (
        "pays_for_anything 2",
        "[2],\"number\":0,\"answer\":{\"pays\":true}",
    ),
    (
        "account 2",
        "[2],\"number\":0,\"answer\":{\"cpu_ns\":4000000,\"cpu_left_ns\":3000000,\"cpu_reserved_ns\":0,\"period_start_ns\":0,\"memory_bytes\":8192,\"memory_used_bytes\":4096,\"memory_reserved_bytes\":0,\"memory_free_bytes\":4096}",
    ),
    (
        "totals root",
        "[1],\"number\":0,\"answer\":{\"cpu_left_ns\":9000000,\"memory_used_bytes\":4224,\"memory_free_bytes\":95776}",
    ),
    (
        "create_user_thread 7 2 1",
        "[7,2,1],\"number\":0,\"answer\":{}",
    ),
    (
        "start 7 1 2 3",
        "[7,1,2,3,0,0,514,0,0,0,0],\"number\":0,\"answer\":{}",
    ),
    ("block_current recv 5", "[2,5],\"number\":0,\"answer\":{}"),
    (
        "is_blocked_on 0 recv 5",
        "[0,2,5],\"number\":0,\"answer\":{\"blocked\":true}",
    ),
    (
        "plan 0",
        "[0],\"number\":0,\"answer\":{\"switch\":{\"old\":0,\"new\":7,\"root\":3}}",
    ),
    ("tick 1", "[1],\"number\":0,\"answer\":{}"),
    ("plan 1", "[1],\"number\":0,\"answer\":{\"switch\":null}"),
    ("wake 0 1 2 3", "[0,1,2,3],\"number\":0,\"answer\":{}"),
    (
        "read_thread 0",
        "[0],\"number\":0,\"answer\":{\"state\":\"ready\",\"wait\":null,\"budget\":null,\"space\":null,\"context\":{\"rip\":0,\"rsp\":0,\"rflags\":514,\"rdi\":0,\"rsi\":0,\"cs\":0,\"ss\":0},\"results\":[1,2,3],\"run_ticks\":0}",
    ),
    (
        "kill 7 destroyed",
        "[7,1],\"number\":0,\"answer\":{\"wait\":null}",
    ),
    (
        "exit_of 7",
        "[7],\"number\":0,\"answer\":{\"cause\":\"destroyed\"}",
    ),
    ("current", "[],\"number\":0,\"answer\":{\"thread\":7}"),
    ("switches", "[],\"number\":0,\"answer\":{\"switches\":1}"),
];

#[test]
fn each_call_has_its_fields() {
    let list = lines(&CALLS.map(|(call, _)| call));
    let ran = carv(&["replay", "--json"], &list);
    assert_eq!((ran.status, ran.err.as_str()), (0, ""));
    let mut found = ran.out.lines();
    for (place, (call, expected)) in CALLS.iter().enumerate() {
        let name = call.split(' ').next().unwrap_or_default();
        let line = place + 1;
        let expected = format!("{{\"line\":{line},\"call\":\"{name}\",\"arguments\":{expected}}}");
        assert_eq!(found.next(), Some(expected.as_str()));
    }
    let spent = "{\"spent\":{\"opened_line\":1,\"overspent\":null,";
    assert!(found.next().is_some_and(|line| line.starts_with(spent)));
    let summary = "{\"summary\":{\"lines\":27,\"calls\":27,\"accepted\":27,\"refused\":0,\"refusals\":[],\"bad_lines\":0,\"stopped_at\":null}}";
    assert_eq!(found.next(), Some(summary));
    assert_eq!(found.next(), None);
}

/// The numbers by which these calls, all refused, are refused.
fn numbers(before: &[&str], refused: &[&str]) -> Vec<u64> {
    let list = lines(before) + &lines(refused);
    let ran = carv(&["replay", "--json", "--quiet"], &list);
    assert_eq!(ran.status, 3);
    let lines = ran.out.lines().filter(|line| line.starts_with("{\"line\""));
    let numbers = lines.map(|line| {
        assert!(
            line.contains("\"meaning\":\"") && line.contains("\"advice\":\""),
            "{line}"
        );
        assert!(!line.contains("\"answer\""), "{line}");
        let (_, rest) = line.split_once("\"number\":").expect("a number");
        rest.split(',')
            .next()
            .and_then(|number| number.parse().ok())
            .expect("digits")
    });
    let numbers: Vec<u64> = numbers.collect();
    assert_eq!(numbers.len(), refused.len());
    numbers
}

const OPEN: &str = "open 10_000_000 1_000_000";

#[test]
fn each_refusal_is_reached() {
    let before = [OPEN, "create_budget root 0 64 0", "create reply 2 1"];
    for (call, number) in [
        ("open 10_000_001 0", 2),
        ("tick 18_446_744_073_710", 3),
        ("insert budget 99 0", 4),
        ("kill idle faulted", 5),
        ("create_user_thread 0 1 1", 5),
        ("remove 99 0", 7),
        ("totals 3", 7),
        ("wake 0 0 0 0", 8),
        ("remove root 0", 9),
        ("remove 2 0", 10),
        ("uncharge 3 65", 11),
        ("create reply 2 1", 12),
        ("create irq root 1", 13),
        ("create frame root 0", 14),
    ] {
        assert_eq!(numbers(&before, &[call]), [number], "{call}");
    }
    let mut full = vec!["insert irq root 0"; 512];
    full[0] = OPEN;
    assert_eq!(numbers(&full, &["insert irq root 0"]), [6]);
}

/// Kinds, waits and causes that the wrapper has no word for reach the board.
#[test]
fn codes_that_are_not_listed_are_refused_by_the_board() {
    let codes = [
        "create 10 99 1",
        "create 0 root 1",
        "insert 18446744073709551615 root 0",
        "block_current 6 1",
        "is_blocked_on 0 0 0",
        "kill idle 3",
    ];
    assert_eq!(numbers(&[OPEN], &codes), [4; 6]);
    assert_eq!(numbers(&[], &codes), [1; 6]);
    let unopened = ["current", "plan 18_446_744_073_710"];
    assert_eq!(numbers(&["is_sound"], &unopened), [1, 1]);
    assert_eq!(
        carv(&["replay"], "is_sound").out.split_whitespace().last(),
        Some("no")
    );
}

#[test]
fn quiet_and_silent_leave_answers_out() {
    let list = lines(&[OPEN, "remove 9 0", "current"]);
    let quiet = carv(&["replay", "--quiet"], &list);
    assert_eq!(quiet.out.lines().count(), 1);
    assert!(
        quiet.out.starts_with("    2  remove 9 0    "),
        "{}",
        quiet.out
    );
    assert!(
        quiet
            .out
            .contains("  refused with 7: there is no such object"),
        "{}",
        quiet.out
    );
    let silent = carv(&["replay", "--silent"], &list);
    assert_eq!((silent.out.as_str(), silent.status), ("", 3));
    assert_eq!(silent.err, quiet.err);
    let expected =
        "3 lines, 3 calls: 2 accepted, 1 refused; 0 bad lines\n  refused with 7, 1 time: ";
    assert!(silent.err.starts_with(expected), "{}", silent.err);
    let json = carv(&["replay", "--silent", "--json"], &list);
    assert_eq!((json.out.lines().count(), json.err.as_str()), (2, ""));
    assert!(
        json.out
            .contains("\"refusals\":[{\"number\":7,\"count\":1,\"meaning\":\"there is no")
    );
}
