//! Names beside a kept board.

use crate::{EXAMPLE, carv, scratch, text};
use std::path::PathBuf;

/// The example's board under this name, and the file of its names.
fn example(name: &str) -> (PathBuf, PathBuf) {
    let names = scratch(&format!("{name}.names"));
    let board = scratch(name);
    carv(&["replay", "--silent", "--keep", text(&board)], EXAMPLE);
    (board, names)
}

#[test]
fn names_are_kept_beside_the_board() {
    let (board, names) = example("named.board");
    let kept = std::fs::read_to_string(&names).expect("names");
    assert_eq!(kept, "name 2 counting\nname 3 bag printer\n");
    let named = "{\"id\":2,\"name\":\"counting\",";
    let ran = carv(&["dump", text(&board), "--json", "--names"], "");
    assert!(ran.out.contains(named), "{}", ran.out);
    // Only where they are asked for.
    let ran = carv(&["dump", text(&board), "--json"], "");
    assert!(!ran.out.contains("counting"), "{}", ran.out);
}

/// Whoever sees budgets without their names is told how to see them.
#[test]
fn names_that_are_not_shown_are_told() {
    let (board, names) = example("names-told.board");
    let ran = carv(&["dump", text(&board)], "");
    let told = format!(
        "carv: budgets have names in {}; --names shows them\n",
        names.display()
    );
    assert_eq!(ran.err, told);
    for option in ["--names", "--json"] {
        assert_eq!(carv(&["dump", text(&board), option], "").err, "");
    }
    std::fs::remove_file(&names).expect("the names");
    assert_eq!(carv(&["dump", text(&board)], "").err, "");
}

/// What goes on with a board goes on with its names; the list may change them.
#[test]
fn a_replay_goes_on_with_them() {
    let (board, _) = example("names-on.board");
    let next = scratch("names-next.board");
    let arguments = ["replay", "--board", text(&board), "--keep", text(&next)];
    let ran = carv(&arguments, "account 2\nname 3 display\n");
    assert!(ran.out.contains("  counting: share 4 ms"), "{}", ran.out);
    let kept = std::fs::read_to_string(format!("{}.names", text(&next)));
    assert_eq!(kept.expect("names"), "name 2 counting\nname 3 display\n");
}

/// A report on what goes on has them too.
#[test]
fn a_report_goes_on_with_them() {
    let (board, _) = example("names-report.board");
    let ran = carv(&["report", "--board", text(&board)], "tick 50\nplan 50\n");
    assert!(ran.out.contains("\n  counting: "), "{}", ran.out);
}

#[test]
fn names_of_an_earlier_board_go() {
    let (board, names) = example("names-gone.board");
    assert!(names.exists());
    let keep = ["replay", "--silent", "--keep", text(&board)];
    assert_eq!(carv(&keep, "open 10_000_000 1\n").status, 0);
    assert!(!names.exists());
    let ran = carv(&["dump", text(&board), "--names"], "");
    assert_eq!((ran.status, ran.err.as_str()), (0, ""));
}

#[test]
fn bad_names_are_said_and_left_out() {
    let (board, names) = example("names-bad.board");
    let path = names.display();
    for (text_of_names, said) in [
        (
            "name 2 counting\nnam 3 x\n",
            "line 2: there is no call `nam`",
        ),
        (
            "open 1 1\nname 2 counting\n",
            "line 1: a call, and no name; it is left out\n",
        ),
        (
            "name two x\nname 2 counting\nname\n",
            "; it is left out, and 1 more\n",
        ),
    ] {
        std::fs::write(&names, text_of_names).expect("a file");
        for command in ["dump", "check"] {
            let ran = carv(&[command, text(&board), "--names"], "");
            assert_eq!(ran.status, 0);
            let begin = format!("carv: the names {path}: line ");
            assert!(ran.err.starts_with(&begin), "{}", ran.err);
            assert!(ran.err.contains(said), "{}", ran.err);
            assert_eq!(ran.err.lines().count(), 1, "{}", ran.err);
        }
        let ran = carv(&["dump", text(&board), "--names"], "");
        assert!(ran.out.contains("  2 counting  "), "{}", ran.out);
    }
    std::fs::remove_file(&names).expect("the names");
    std::fs::create_dir(&names).expect("a folder in their place");
    let ran = carv(&["dump", text(&board), "--names"], "");
    std::fs::remove_dir(&names).expect("the folder");
    assert_eq!(ran.status, 0);
    let said = format!("carv: the names {path} can't be read: ");
    assert!(ran.err.starts_with(&said), "{}", ran.err);
}
