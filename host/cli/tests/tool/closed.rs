//! Standard error that nobody reads, or that isn't there.

use crate::{ANSWERS, EXAMPLE, carv, scratch, text};
use std::process::{Command, Stdio};

/// The status of the tool and what it printed, with the reader of standard error gone.
fn unheard(arguments: &[&str]) -> (i32, String) {
    let (reader, writer) = std::io::pipe().expect("a pipe");
    drop(reader);
    let mut tool = Command::new(env!("CARGO_BIN_EXE_carv"));
    ended(tool.args(arguments).stderr(writer))
}

/// The same, with standard error closed.
fn closed(arguments: &[&str]) -> (i32, String) {
    let mut shell = Command::new("sh");
    let shell = shell.args(["-c", "exec \"$0\" \"$@\" 2>&-"]);
    let shell = shell.arg(env!("CARGO_BIN_EXE_carv")).args(arguments);
    ended(shell.stderr(Stdio::null()))
}

fn ended(command: &mut Command) -> (i32, String) {
    let output = command
        .stdin(Stdio::null())
        .output()
        .expect("the tool runs");
    let out = String::from_utf8(output.stdout).expect("UTF-8 text");
    (output.status.code().expect("an exit status"), out)
}

#[test]
fn what_is_said_to_nobody_is_no_failure() {
    let list = scratch("unheard.calls");
    std::fs::write(&list, EXAMPLE).expect("a list");
    let bad = scratch("unheard-bad.calls");
    std::fs::write(&bad, "oops\n").expect("a list");
    for run in [unheard, closed] {
        let (status, out) = run(&["replay", text(&list)]);
        assert_eq!((status, out.as_str()), (3, ANSWERS));
        assert_eq!(run(&["replay", text(&bad)]), (4, String::new()));
        for how in ["stop", "skip"] {
            let (status, out) = run(&["report", text(&bad), "--bad-lines", how]);
            assert_eq!(status, 4);
            assert!(out.starts_with("Did each service get its share"), "{out}");
        }
        assert_eq!(run(&["nonsense"]), (2, String::new()));
        assert_eq!(run(&["dump", "no/such/board"]), (1, String::new()));
    }
}

/// As with `2>&1 | head -1`: both go to one pipe, whose reader goes.
#[test]
fn answers_and_errors_to_nobody() {
    let list = scratch("both.calls");
    std::fs::write(&list, EXAMPLE).expect("a list");
    let (reader, writer) = std::io::pipe().expect("a pipe");
    drop(reader);
    let ran = Command::new(env!("CARGO_BIN_EXE_carv"))
        .args(["replay", text(&list)])
        .stdout(writer.try_clone().expect("the pipe"))
        .stderr(writer)
        .status();
    let status = ran.expect("the tool runs").code();
    assert!(matches!(status, Some(0 | 3)), "{status:?}");
}

/// Names that can't be read are said, also to nobody.
#[test]
fn bad_names_are_said_to_nobody() {
    let board = scratch("unheard.board");
    carv(&["replay", "--silent", "--keep", text(&board)], EXAMPLE);
    let names = format!("{}.names", text(&board));
    std::fs::write(&names, "nam 2 counting\n").expect("a file");
    let (status, out) = unheard(&["dump", text(&board)]);
    assert_eq!(status, 0);
    assert!(out.starts_with("Board: "), "{out}");
}
