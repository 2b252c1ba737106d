//! Lines that are understood, and what is said of those that are not.

use super::*;

fn call(line: &str) -> Call {
    match parse(line.as_bytes()) {
        Ok(Line::Call(call)) => call,
        Ok(_) => panic!("`{line}` is no call"),
        Err(why) => panic!("`{line}`: {why}"),
    }
}

fn bad(line: &[u8]) -> String {
    match parse(line) {
        Ok(_) => panic!("`{}` is understood", String::from_utf8_lossy(line)),
        Err(why) => why.to_string(),
    }
}

#[test]
fn numbers() {
    assert_eq!(number("0"), Ok(0));
    assert_eq!(number("10_000_000"), Ok(10_000_000));
    assert_eq!(number("007"), Ok(7));
    assert_eq!(number("18446744073709551615"), Ok(u64::MAX));
    assert_eq!(number("18446744073709551616"), Err(NoNumber::TooLarge));
    for word in [
        "", "_1", "1_", "1__0", "+1", "-1", "1.5", "0x10", "1e3", "٣",
    ] {
        assert_eq!(number(word), Err(NoNumber::Word), "{word}");
    }
}

#[test]
fn calls() {
    assert_eq!(
        call("open 10_000_000 1_000").arguments(),
        [10_000_000, 1_000]
    );
    assert_eq!(
        call("\tcreate  frame root 1 # the first\r\n").arguments(),
        [3, 1, 1]
    );
    assert_eq!(call("create 3 1 1").to_string(), "create frame root 1");
    assert_eq!(call("create 10 2 0").to_string(), "create 10 2 0");
    assert_eq!(call("kill idle faulted").arguments(), [u64::MAX, 2]);
    assert_eq!(call("kill 7 3").arguments(), [7, 3]);
    assert_eq!(
        call("block_current sleep 20").to_string(),
        "block_current sleep 20"
    );
    assert_eq!(call("current").arguments(), []);
}

#[test]
fn a_start_may_leave_out_its_last_arguments() {
    let short = call("start 7 2 3");
    assert_eq!(short.arguments(), [7, 2, 3, 0, 0, 0, 0x202, 0, 0, 0, 0]);
    assert_eq!(short.to_string(), "start 7 2 3");
    let whole = call("start 7 1 2 3 4 5 6 7 8 9 10");
    assert_eq!(whole.arguments(), [7, 1, 2, 3, 4, 5, 6, 7, 8, 9, 10]);
}

#[test]
fn names_and_empty_lines() {
    for line in ["", "  \t\r\n", "# open 1 2", "   # "] {
        assert!(
            matches!(parse(line.as_bytes()), Ok(Line::Nothing)),
            "{line}"
        );
    }
    for (line, expected) in [
        ("name 2 counting", (2, "counting")),
        (
            "name root  the whole  board # all of it",
            (1, "the whole  board"),
        ),
        ("  name 3 Ausgabe für Münzen\r\n", (3, "Ausgabe für Münzen")),
    ] {
        let Ok(Line::Name(id, name)) = parse(line.as_bytes()) else {
            panic!("`{line}` names nothing");
        };
        assert_eq!((id, name.as_str()), expected);
    }
}

#[test]
fn bad_lines_are_told() {
    for (line, expected) in [
        (
            "creat frame 1 1",
            "there is no call `creat`; did you mean `create KIND PAYER BACKING`?",
        ),
        (
            "nam 2 x",
            "there is no call `nam`; did you mean `name ID TEXT`?",
        ),
        ("xyzzy", "there is no call `xyzzy`"),
        (
            "create frame root",
            "`create` takes 3 arguments, not 2; the form is `create KIND PAYER BACKING`",
        ),
        (
            "tick",
            "`tick` takes 1 argument, not 0; the form is `tick N`",
        ),
        (
            "current 1",
            "`current` takes no arguments, not 1; the form is `current`",
        ),
        (
            "start",
            "`start` takes 1 to 11 arguments, not 0; the form is `start ID [SPACE CSPACE ROOT RIP RSP RFLAGS RDI RSI CS SS]`",
        ),
        (
            "tick 18446744073709551616",
            "n `18446744073709551616` is too large, numbers lie below 2^64; the form is `tick N`",
        ),
        (
            "remove -1 0",
            "id `-1` is neither a number nor root; the form is `remove ID TIME`",
        ),
        (
            "remove 3",
            "`remove` takes 2 arguments, not 1; the form is `remove ID TIME`",
        ),
        (
            "tick 0x10",
            "n `0x10` is no decimal number; the form is `tick N`",
        ),
        (
            "kill 3 gone",
            "cause `gone` is neither a number nor destroyed, faulted; the form is `kill ID CAUSE`",
        ),
        (
            "create frame root 2",
            "backing is 2, it must be 0 or 1; the form is `create KIND PAYER BACKING`",
        ),
        (
            "name 2",
            "`name` takes an id and a text; the form is `name ID TEXT`",
        ),
        (
            "name x y",
            "id `x` is neither a number nor root; the form is `name ID TEXT`",
        ),
        (
            "name 2 a\u{1b}[31m",
            "the name has a control character; the form is `name ID TEXT`",
        ),
    ] {
        assert_eq!(bad(line.as_bytes()), expected);
    }
    assert_eq!(bad(b"tick \xff"), "byte 6 of the line is no UTF-8 text");
    assert_eq!(bad(b"\x1b[31m"), "there is no call `?[31m`");
    let long = "x".repeat(60);
    assert!(bad(long.as_bytes()).starts_with(&format!("there is no call `{}...`", &long[..40])));
}
