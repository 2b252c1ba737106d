//! Lines that are no calls, ways to write lines, long lists, closed pipes.

use crate::{carv, carv_bytes, lines, scratch, spawn, text};
use std::io::{BufRead, BufReader};

const BAD: [&str; 5] = [
    "open 10_000_000 1_000_000",
    "",
    "creat frame root 1",
    "remove 99 0",
    "tick 1 2",
];

#[test]
fn a_bad_line_stops_the_list() {
    let ran = carv(&["replay"], &lines(&BAD));
    assert_eq!(ran.status, 4);
    assert_eq!(ran.out.lines().count(), 1);
    assert_eq!(
        ran.err,
        "carv: line 3: there is no call `creat`; did you mean `create KIND PAYER BACKING`?\n3 lines, 1 call: 1 accepted, 0 refused; 1 bad line; stopped at line 3\n  no period of 10 ms overspent, by any budget with all below it.\n    No CPU time was charged.\n"
    );
}

#[test]
fn bad_lines_are_skipped_on_request() {
    let ran = carv(&["replay", "--bad-lines", "skip"], &lines(&BAD));
    assert_eq!(ran.status, 4);
    assert_eq!(ran.out.lines().count(), 2);
    let expected = "carv: line 5: `tick` takes 1 argument, not 2; the form is `tick N`\n5 lines, 2 calls: 1 accepted, 1 refused; 2 bad lines\n";
    assert!(ran.err.contains(expected), "{}", ran.err);
}

#[test]
fn bad_lines_are_objects_in_json() {
    let ran = carv(&["replay", "--json", "--bad-lines=skip"], &lines(&BAD));
    assert_eq!((ran.status, ran.err.as_str()), (4, ""));
    let found: Vec<&str> = ran.out.lines().collect();
    assert_eq!(
        found[1],
        "{\"line\":3,\"error\":\"there is no call `creat`; did you mean `create KIND PAYER BACKING`?\"}"
    );
    assert_eq!(
        found[3],
        "{\"line\":5,\"error\":\"`tick` takes 1 argument, not 2\",\"form\":\"tick N\"}"
    );
    assert!(
        found[5].ends_with("\"bad_lines\":2,\"stopped_at\":null}}"),
        "{}",
        found[5]
    );
}

#[test]
fn lines_of_any_encoding_and_length() {
    let list = b"\xef\xbb\xbfopen 10_000_000 1\r\n\tcurrent\t# \xc3\xbc\r\ncurrent";
    let ran = carv_bytes(&["replay"], list);
    assert_eq!((ran.status, ran.out.lines().count()), (0, 3));
    let ran = carv_bytes(&["replay"], b"current \xff\n");
    assert_eq!(ran.status, 4);
    assert!(
        ran.err
            .starts_with("carv: line 1: byte 9 of the line is no UTF-8 text\n")
    );
    let long = format!("# {}\ncurrent\n", "x".repeat(70_000));
    let ran = carv(&["replay"], &long);
    assert_eq!(ran.status, 4);
    assert!(
        ran.err
            .starts_with("carv: line 1: the line has more than 65,536 bytes\n")
    );
}

#[test]
fn names_stand_in_answers() {
    let list = lines(&[
        "name 2 bag \"printer\" # with quotes",
        "open 10_000_000 1_000_000",
        "create_budget root 0 128 0",
        "insert irq 2 1",
        "charge_of 3",
        "account 2",
        "account root",
        "totals 2",
    ]);
    let ran = carv(&["replay", "--dump"], &list);
    let found: Vec<&str> = ran.out.lines().collect();
    assert!(
        found[1].ends_with("  object 2 (bag \"printer\")"),
        "{}",
        found[1]
    );
    assert!(
        found[3].ends_with("  1 B, paid by 2 (bag \"printer\")"),
        "{}",
        found[3]
    );
    assert!(
        found[4].contains("  bag \"printer\": share 0 ms, left"),
        "{}",
        found[4]
    );
    assert!(
        found[5].contains("  root: share 10 ms, left"),
        "{}",
        found[5]
    );
    assert!(
        found[6].contains(
            "  bag \"printer\" with all below it: left 0 ms; memory used 1 B, free 127 B"
        ),
        "{}",
        found[6]
    );
    // Among the budgets, and among the totals.
    let lines = ran.out.matches("\n    2 bag \"printer\"  ").count();
    assert_eq!(lines, 2, "{}", ran.out);
    let ran = carv(&["replay", "--dump", "--json"], &list);
    assert!(
        ran.out
            .contains("{\"id\":2,\"name\":\"bag \\\"printer\\\"\",\"kind\":\"budget\"")
    );
}

/// More answers than a pipe holds. The last call changes the board.
fn long_list() -> String {
    "open 10_000_000 1\n".to_string() + &"current\n".repeat(50_000) + "tick 1\n"
}

/// Reads one line of the answers, and closes the pipe.
fn read_one_line(arguments: &[&str]) -> (i32, String) {
    let (mut child, writer) = spawn(arguments, long_list().as_bytes());
    let mut answers = BufReader::new(child.stdout.take().expect("standard output"));
    let mut first = String::new();
    answers.read_line(&mut first).expect("a line");
    drop(answers);
    let output = child.wait_with_output().expect("the tool ends");
    writer.join().expect("the input is written or refused");
    let told = String::from_utf8(output.stderr).expect("UTF-8 text");
    (output.status.code().expect("an exit status"), told)
}

#[test]
fn a_closed_pipe_ends_quietly() {
    assert_eq!(read_one_line(&["replay"]), (0, String::new()));
    let (whole, kept) = (scratch("whole-list.board"), scratch("closed.board"));
    let ran = carv(
        &["replay", "--silent", "--keep", text(&whole)],
        &long_list(),
    );
    assert_eq!(ran.status, 0);
    let ran = read_one_line(&["replay", "--keep", text(&kept)]);
    assert_eq!(ran, (0, String::new()));
    let bytes = |path| std::fs::read(path).expect("a kept board");
    assert!(bytes(kept) == bytes(whole), "the last call was made");
}

#[test]
fn a_list_that_is_not_there() {
    let ran = carv(&["replay", "no/such/list"], "");
    assert_eq!(ran.status, 1);
    let expected = "carv: the list no/such/list can't be read: ";
    assert!(ran.err.starts_with(expected), "{}", ran.err);
}
