//! Pictures of who ran when.

use crate::{EXAMPLE, carv, lines, scratch, text};

#[test]
fn a_picture_is_drawn() {
    let path = scratch("first.svg");
    let arguments = ["replay", "--silent", "--svg", text(&path)];
    let titled = [
        &arguments[..],
        &["--title", "Coins & <bags>", "--from", "5"],
    ]
    .concat();
    assert_eq!(carv(&titled, EXAMPLE).status, 3);
    let picture = std::fs::read_to_string(&path).expect("a picture");
    assert!(picture.starts_with("<svg") || picture.starts_with("<?xml"));
    for part in [
        "Coins &amp; &lt;bags&gt;",
        "counting",
        "bag printer",
        "ticks 1 to 10",
    ] {
        assert!(picture.contains(part), "{part}");
    }
    for event in [
        "create_budget root 5000000 0 0: refused with 12",
        "thread 5 of budget 3 (bag printer) is killed",
        "remove 3 10000000: refused with 10",
        "budget 3 (bag printer) is removed",
    ] {
        assert!(picture.contains(event), "{event}");
    }
    assert!(!picture.contains("5 is removed"), "only budgets are told");
    assert!(
        !picture.contains("carved out of"),
        "what is accepted before the first tick is no event"
    );
}

/// A name may stand behind the calls that tell of its budget.
#[test]
fn events_have_names_that_come_later() {
    let path = scratch("later.svg");
    let list = lines(&[
        "open 10_000_000 100_000",
        "tick 1",
        "create_budget root 4_000_000 8_192 0",
        "remove 2 1_000_000",
        "name 2 counting",
        "name root all",
    ]);
    let ran = carv(&["replay", "--silent", "--svg", text(&path)], &list);
    assert_eq!(ran.status, 0, "{}", ran.err);
    let picture = std::fs::read_to_string(&path).expect("a picture");
    for event in [
        "budget 2 (counting) is carved out of 1 (all): 4 ms, 8,192 B",
        "budget 2 (counting) is removed",
    ] {
        assert!(picture.contains(event), "{event}");
    }
}

/// Events behind the first ten thousand are counted.
#[test]
fn more_events_than_are_kept() {
    let path = scratch("many.svg");
    let list = "open 10_000_000 1\ntick 1\n".to_string() + &"remove 9 0\n".repeat(10_050);
    carv(&["replay", "--silent", "--svg", text(&path)], &list);
    let picture = std::fs::read_to_string(&path).expect("a picture");
    assert!(picture.contains("Events not listed: 10,030."));
}

#[test]
fn no_picture_without_ticks() {
    let path = scratch("none.svg");
    let ran = carv(&["replay", "--svg", text(&path)], "open 10_000_000 1");
    assert_eq!(ran.status, 1);
    assert!(
        ran.err
            .ends_with("can't be drawn: the list has no accepted tick.\n"),
        "{}",
        ran.err
    );
    let from = ["replay", "--silent", "--svg", text(&path), "--from", "11"];
    let ran = carv(&from, EXAMPLE);
    assert_eq!(ran.status, 2);
    let expected = "--from 11 is outside of the list's ticks, 1 to 10";
    assert!(ran.err.contains(expected), "{}", ran.err);
    assert!(!path.exists());
}
