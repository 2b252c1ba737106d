//! `board soak`: what fixes a run, what it reports, and how it ends.

mod common;

use carv_board_host::soak::{Limit, Options, Report, soak};
use common::{Run, run, with_reader_gone};
use std::io::{BufRead, BufReader, Read};
use std::ops::ControlFlow;
use std::process::{Command, Stdio};

fn options(arguments: &str) -> Options {
    let arguments: Vec<&str> = arguments.split_whitespace().collect();
    Options::read(&arguments).expect("arguments that fit")
}

fn board(arguments: &str) -> Run {
    run(env!("CARGO_BIN_EXE_board"), arguments)
}

/// Breaks no run off.
fn to_the_end(_: &Report) -> ControlFlow<()> {
    ControlFlow::Continue(())
}

#[test]
fn seed_and_count_fix_a_run() {
    let run = |arguments| soak(&options(arguments), to_the_end);
    let [first, again] = ["--calls 9000 --seed 4"; 2].map(run);
    assert_eq!(first.tally, again.tally);
    assert_eq!(first.damaged, again.damaged);
    assert_eq!(first.tally.total(), 9_000);
    assert!(first.damaged.areas() > 0);
    let other = run("--calls 9000 --seed 5");
    assert_ne!(first.tally, other.tally);
}

#[test]
fn the_count_of_a_run_by_time_repeats_it() {
    let timed = soak(&options("--seconds 1 --seed 6 --damaged 30"), to_the_end);
    assert!(timed.time.as_secs_f64() >= 1.0);
    let counted = Options {
        limit: Limit::Calls(timed.tally.total()),
        ..timed.options
    };
    let repeated = soak(&counted, to_the_end);
    assert_eq!(repeated.tally, timed.tally);
    assert_eq!(repeated.damaged, timed.damaged);
}

#[test]
fn the_share_says_how_many_areas_are_damaged() {
    let areas = |arguments| soak(&options(arguments), to_the_end).damaged.areas();
    assert_eq!(areas("--calls 6000 --seed 1 --damaged 0"), 0);
    let few = areas("--calls 6000 --seed 1 --damaged 10");
    let many = areas("--calls 6000 --seed 1 --damaged 60");
    assert!(0 < few && 5 * few < many, "{few}, {many}");
}

#[test]
fn a_report_is_printed() {
    let run = board("soak --calls 40000 --seed 3 --json");
    assert_eq!(run.status, Some(0));
    let printed = run.out;
    let lines: Vec<&str> = printed.lines().collect();
    assert_eq!(lines[0], "seed 3, 40,000 calls, 10 % damaged areas");
    for part in [
        "the payer can't cover the charge",
        " came.\nOn a sound board no call gave another number.\n\nboards opened",
        "removals                 payer due       not due    clock fell\nof a budget ",
        "totals                        read\nof the root ",
        "queue ids are distinct",
        "to repeat it: board soak --calls 40000 --seed 3\n",
    ] {
        assert!(printed.contains(part), "{part}");
    }
    let [.., sum, json] = &lines[..] else {
        panic!("too few lines");
    };
    assert!(
        sum.starts_with("seed 3, ") && sum.ends_with(" 0 differences"),
        "{sum}"
    );
    assert!(
        json.starts_with("{\"seed\":3,\"limit\":{\"calls\":40000},"),
        "{json}"
    );
    assert!(
        json.contains(",\"removals\":{\"budget\":{\"payer_due\":"),
        "{json}"
    );
    assert!(json.contains(",\"totals\":{\"root\":"), "{json}");
    assert!(
        json.contains("\"differences\":0,\"difference\":null,"),
        "{json}"
    );
}

#[test]
fn a_run_that_is_broken_off_is_repeated_by_its_count() {
    let after = |calls| {
        move |report: &Report| match report.tally.total() {
            total if total == calls => ControlFlow::Break(()),
            _ => ControlFlow::Continue(()),
        }
    };
    let run = soak(&options("--minutes 60 --seed 4"), after(7_000));
    assert!(run.is_interrupted);
    assert_eq!(run.tally.total(), 7_000);
    let end = "\ninterrupted behind call 7,000, before its limit of 3600 s\nto repeat it: board soak --calls 7000 --seed 4\nseed 4, ";
    assert!(run.to_string().contains(end), "{run}");
    assert!(run.json().contains(",\"interrupted\":true,"));
    let again = soak(&options("--calls 7000 --seed 4"), to_the_end);
    assert!(!again.is_interrupted);
    assert_eq!(again.tally, run.tally);
    assert_eq!(again.damaged, run.damaged);
    assert!(!again.to_string().contains("interrupted"));
    // At the limit nothing is broken off.
    let at_limit = soak(&options("--calls 7000 --seed 4"), after(7_000));
    assert!(!at_limit.is_interrupted);
}

#[test]
fn ctrl_c_ends_with_the_report() {
    // It isn't started to ignore Ctrl-C, as what runs in the background may be.
    let mut child = Command::new("env")
        .arg("--default-signal=INT")
        .arg(env!("CARGO_BIN_EXE_board"))
        .args(["soak", "--minutes", "60", "--seed", "3", "--json"])
        .stdout(Stdio::piped())
        .spawn()
        .expect("the program starts");
    let mut out = BufReader::new(child.stdout.take().expect("standard output"));
    let mut printed = String::new();
    out.read_line(&mut printed).expect("the first line");
    let number = child.id().to_string();
    let sent = Command::new("kill").args(["-INT", &number]).status();
    assert!(sent.expect("kill runs").success());
    out.read_to_string(&mut printed).expect("the report");
    let status = child.wait().expect("it ends").code();
    assert_eq!(status, Some(130), "{printed}");
    for part in [
        "seed 3, 3600 s, 10 % damaged areas\n",
        "\ninterrupted behind call ",
        ", before its limit of 3600 s\nto repeat it: board soak --calls ",
        " 0 differences\n",
        ",\"interrupted\":true,",
    ] {
        assert!(printed.contains(part), "{part}: {printed}");
    }
}

/// The command is named as its user calls it.
#[test]
fn the_command_is_what_the_user_types() {
    let run = |arguments: &str| {
        let mut command = Command::new(env!("CARGO_BIN_EXE_board"));
        let command = command.env("CARV_SOAK_CALLED_AS", "tools/soak");
        let output = command.args(arguments.split(' ')).output();
        let output = output.expect("the program starts");
        let text = |bytes| String::from_utf8(bytes).expect("text");
        text(output.stdout) + &text(output.stderr)
    };
    for (arguments, part) in [
        (
            "soak --calls 20 --seed 3",
            "\nto repeat it: tools/soak --calls 20 --seed 3\n",
        ),
        (
            "soak --calls 20 --seed 3 --json",
            "\"repeat\":\"tools/soak --calls 20 --seed 3\"",
        ),
        (
            "soak --calls",
            "tools/soak: --calls needs a number behind it; see tools/soak --help\n",
        ),
        ("soak --help", "\nusage: tools/soak [--seconds N"),
    ] {
        let printed = run(arguments);
        assert!(printed.contains(part), "{arguments}: {printed}");
        assert!(!printed.contains("board soak"), "{arguments}: {printed}");
    }
}

#[test]
fn what_is_said_to_nobody_is_no_failure() {
    for (arguments, status) in [
        ("soak --calls 20 --seed 3", 0),
        ("soak --calls", 2),
        ("sok", 2),
    ] {
        let run = with_reader_gone(env!("CARGO_BIN_EXE_board"), arguments);
        assert_eq!(run.status, Some(status), "{arguments}");
    }
}

#[test]
fn what_never_came_is_told() {
    let run = board("soak --calls 1 --seed 3");
    assert_eq!(run.status, Some(0));
    for part in [
        "1 came; not: open 2, create 0, ",
        " and 59 more.",
        "No area was damaged.",
        ": 1 call (",
    ] {
        assert!(run.out.contains(part), "{part}: {}", run.out);
    }
}

#[test]
fn help_is_printed() {
    for (arguments, part) in [
        ("--help", "board soak [OPTIONS]"),
        ("soak --help", "--minutes N"),
        ("soak -h", "--damaged SHARE"),
    ] {
        let run = board(arguments);
        assert_eq!(run.status, Some(0), "{arguments}");
        assert!(run.out.contains(part), "{arguments}");
    }
}

#[test]
fn wrong_arguments_end_with_2() {
    for (arguments, part) in [
        (
            "soak --calls",
            "--calls needs a number behind it; see board soak --help",
        ),
        ("soak --calls 5 --minutes 1", "only one of"),
        ("soak --json yes", "there is no option `yes`"),
        ("sok", "or `soak`; see board --help"),
    ] {
        let run = board(arguments);
        assert_eq!(run.status, Some(2), "{arguments}");
        assert!(run.out.is_empty(), "{arguments}");
        let said = run.err;
        assert!(said.contains(part), "{arguments}: {said}");
    }
}

#[cfg(feature = "mock")]
mod planted {
    use carv_board_host::mock::{Mistake, plant};
    use carv_board_host::soak::command;

    /// Runs the command with a mistake planted: what went wrong, and what is printed.
    fn run(mistake: Mistake, calls: u64) -> (Result<(), String>, String) {
        let calls = calls.to_string();
        let arguments = ["--calls", &calls, "--seed", "1", "--json"];
        let mut printed = Vec::new();
        plant(Some(mistake));
        let done = command::run(&arguments, &mut printed);
        plant(None);
        let printed = String::from_utf8(printed).expect("text");
        let done = done.expect("arguments that fit");
        (done.map(|_| ()), printed)
    }

    /// The count in the command that repeats the run.
    fn repeating(printed: &str) -> u64 {
        let (_, behind) = printed
            .split_once("to repeat it: board soak --calls ")
            .expect("the command is printed");
        let (count, _) = behind.split_once(" --seed 1\n").expect("the seed");
        count.parse().expect("a number")
    }

    /// The mistake is found and reported, and the command that is printed finds it again, at its
    /// very last call.
    fn is_reported(mistake: Mistake, parts: &[&str]) {
        let (done, printed) = run(mistake, 300_000);
        let why = done.expect_err("a difference");
        let count = repeating(&printed);
        assert!(why.contains(&format!("--calls {count} --seed 1")), "{why}");
        for part in parts {
            assert!(printed.contains(part), "{part}: {printed}");
        }
        assert!(printed.contains(", 1 difference\n"), "{printed}");
        assert!(!printed.contains("no call gave another"), "{printed}");
        assert!(printed.contains("\"differences\":1,"), "{printed}");
        assert!(run(mistake, count).0.is_err());
        assert!(run(mistake, count - 1).0.is_ok());
    }

    #[test]
    fn a_mistake_in_a_call_is_reported_with_a_short_list() {
        let parts = ["difference: seed 1, ", " calls\n  open(", "\n  plan("];
        is_reported(Mistake::AlwaysIdle, &parts);
        is_reported(
            Mistake::LastTickTooEarly,
            &["(18446744073709)\ndifference: the number"],
        );
    }

    #[test]
    fn a_mistake_in_question_1_is_reported_with_the_damage() {
        let parts = ["difference: seed 1, a damaged area, ", "\nrule broken: "];
        is_reported(Mistake::CausesNotAsked, &parts);
    }
}
