//! Help, options and wrong calls of the tool.

use crate::{EXAMPLE, carv};

#[test]
fn help_at_any_level() {
    let tool = carv(&["help"], "");
    assert_eq!((tool.status, tool.err.as_str()), (0, ""));
    for arguments in [&["--help"][..], &["-h"], &["help", "help"]] {
        assert_eq!(carv(arguments, "").out, tool.out);
    }
    for topic in ["replay", "report", "dump", "check", "calls"] {
        let help = carv(&["help", topic], "");
        assert_eq!(help.status, 0);
        assert!(
            help.out.contains(&format!("usage: carv {topic}")),
            "{}",
            help.out
        );
        assert!(help.out.contains("Exit status: 0"), "{}", help.out);
        assert_eq!(carv(&[topic, "x", "--help"], "").out, help.out);
        assert_eq!(carv(&[topic, "-h"], "").out, help.out);
    }
    assert!(
        carv(&["help", "list"], "")
            .out
            .starts_with("A list has one call a line")
    );
    assert!(carv(&["help", "json"], "").out.contains("\"summary\""));
    assert_eq!(carv(&["help", "example"], "").out, EXAMPLE);
}

/// What stands between the two lines of the help's example that can be pasted.
#[test]
fn the_example_of_the_help_is_true() {
    let help = carv(&["help", "replay"], "").out;
    let (_, rest) = help.split_once("<<'END'\n").expect("a list");
    let (list, rest) = rest.split_once("    END\n").expect("its end");
    let ran = carv(&["replay"], list);
    assert_eq!(ran.status, 3);
    let shown = rest.lines().filter(|line| line.starts_with("    "));
    let shown: Vec<&str> = shown.collect();
    assert_eq!(shown.len(), ran.out.lines().count());
    for (shown, answer) in shown.iter().zip(ran.out.lines()) {
        let begin = shown.trim_start().trim_end_matches(" ...");
        assert!(answer.trim_start().starts_with(begin), "{shown}: {answer}");
    }
}

#[test]
fn the_calls_are_listed() {
    let calls = carv(&["calls"], "");
    assert_eq!(calls.status, 0);
    for part in [
        "\ncreate KIND PAYER BACKING\n",
        "\n    arguments: KIND a kind, PAYER an object, BACKING 0 or 1\n",
        "\n    refused with: 1, 4, 6, 7, 12, 13, 14\n",
        "\ntotals ID\n",
        "\nstart ID [SPACE CSPACE ROOT RIP RSP RFLAGS RDI RSI CS SS]\n",
        "\n12: the payer can't cover the charge",
    ] {
        assert!(calls.out.contains(part), "{part}");
    }
    assert!(calls.out.lines().all(|line| line.chars().count() <= 100));
}

#[test]
fn wrong_calls_are_told() {
    for (arguments, told) in [
        (
            &[][..],
            "say what to do: replay, dump, check, calls or help.",
        ),
        (
            &["chekc"],
            "there is no command `chekc`; did you mean `check`?",
        ),
        (
            &["help", "jsn"],
            "there is no help on `jsn`; did you mean `json`?",
        ),
        (&["help", "list", "json"], "`carv help` takes one topic."),
        (&["dump"], "`carv dump` needs the file of a kept board."),
        (&["check", "a", "b"], "`carv check` has no use for `b`."),
        (&["calls", "x"], "`carv calls` has no use for `x`."),
        (
            &["replay", "--jsno"],
            "`carv replay` has no option `--jsno`; did you mean `--json`?",
        ),
        (&["replay", "-x"], "`carv replay` has no option `-x`."),
        (&["replay", "list", "--keep"], "--keep needs a value."),
        (&["replay", "--json=1"], "--json takes no value."),
        (&["replay", "--dump", "--dump"], "--dump is given twice."),
        (
            &["replay", "--services"],
            "--services is about the answers as JSON: give --json, too.",
        ),
        (
            &["report", "--json", "--csv"],
            "a report is JSON or CSV: give --json or --csv, not both.",
        ),
        (
            &["report", "--quiet"],
            "`carv report` has no option `--quiet`.",
        ),
        (&["report", "a", "b"], "`carv report` has no use for `b`."),
        (
            &["replay", "--bad-lines", "no"],
            "--bad-lines is stop or skip, not `no`.",
        ),
        (
            &["replay", "--svg", "x", "--from", "-1"],
            "the tick `-1` behind --from is no decimal number.",
        ),
        (
            &["replay", "--title", "x"],
            "--from and --title are about the picture: name its file with --svg.",
        ),
        (
            &["report", "--from", "1"],
            "--from and --title are about the picture: name its file with --html.",
        ),
    ] {
        let ran = carv(arguments, "");
        assert_eq!((ran.status, ran.out.as_str()), (2, ""), "{arguments:?}");
        assert_eq!(ran.err, format!("carv: {told} See `carv help`.\n"));
    }
}

#[test]
fn options_stand_before_and_behind_the_list() {
    let before = carv(&["replay", "--quiet", "-"], EXAMPLE);
    let behind = carv(&["replay", "-", "--quiet"], EXAMPLE);
    assert_eq!((before.out.lines().count(), before.out), (2, behind.out));
    let ran = carv(&["replay", "--", "--quiet"], EXAMPLE);
    assert!(
        ran.err
            .starts_with("carv: the list --quiet can't be read: "),
        "{}",
        ran.err
    );
}
