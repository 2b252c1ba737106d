//! Pages: the report as one HTML file.

use crate::{EXAMPLE, Ran, scratch, spawn, text};
use std::fs;
use std::path::Path;
use std::process::{Command, Stdio};

const STARVING: &str = concat!(env!("CARGO_MANIFEST_DIR"), "/examples/starving.calls");
/// The sum that the stamp of the linked library has.
const SUM: &str = match carv::LIBRARY_FNV1A {
    Some(sum) => sum,
    None => "",
};

/// A stamp of a library with this sum and verdict.
fn stamp(sum: &str, verdict: &str) -> String {
    format!(
        "commit: 0123abc\nlibrary: libcarv.a, 1 bytes\nsha256: 4567\nfnv1a: {sum}\nverdict: {verdict}\n\
         crates: 8\nfunctions: 322\naxioms: 0\nprover: a kit\nmade: 2026-11-18 02:50 UTC\n"
    )
}

/// Runs the tool with this stamp's file, and reads the page that it writes.
fn page(arguments: &[&str], file: &Path, stamp: Option<&Path>) -> (Ran, String) {
    let mut command = Command::new(env!("CARGO_BIN_EXE_carv"));
    command.args(arguments).args(["--html", text(file)]);
    command
        .env_remove("CARV_STAMP")
        .env("CARV_COMMIT", "89ab-dirty");
    if let Some(stamp) = stamp {
        command.env("CARV_STAMP", stamp);
    }
    let output = command
        .stdin(Stdio::null())
        .output()
        .expect("the tool runs");
    let text = |bytes| String::from_utf8(bytes).expect("UTF-8 text");
    let ran = Ran {
        status: output.status.code().expect("an exit status"),
        out: text(output.stdout),
        err: text(output.stderr),
    };
    let page = fs::read_to_string(file).expect("a page");
    (ran, page)
}

fn list(name: &str, calls: &str) -> std::path::PathBuf {
    let path = scratch(name);
    fs::write(&path, calls).expect("a list");
    path
}

/// The answer comes first, and all parts are there.
#[test]
fn the_starving_example() {
    let file = scratch("starving.html");
    let (ran, page) = page(
        &["report", STARVING, "--title", "Coins & <bags>"],
        &file,
        None,
    );
    assert_eq!((ran.status, ran.err.as_str()), (0, ""));
    assert!(ran.out.starts_with("Did each service"), "{}", ran.out);
    assert!(page.starts_with("<!DOCTYPE html>\n<html lang=\"en\">"));
    let order = [
        "<h1>Coins &amp; &lt;bags&gt;</h1>",
        "Did each service get its share in every 10 ms in which it wanted it?",
        "NO</strong> for all 3",
        "NO</strong><span>counting: MISSED 10 of 10 periods; ",
        "A period of 10 ms is missed if",
        "yes</strong><span>No period was overspent",
        "What was asked",
        "starving.calls",
        "carv report ",
        "231: 231 accepted, 0 refused",
        "109 of 1 ms, 1 to 109",
        "11 of 10 ms, 10 of them seen as a whole",
        "CPU time in every 10 ms",
        "How the periods of 10 ms went",
        "Missed periods",
        "Budgets",
        "Threads",
        "<svg ",
        "No call was refused.",
        "What this rests on",
        "carv 0.1.0, commit 89ab-dirty",
    ];
    let mut rest = page.as_str();
    for part in order {
        let begin = rest.find(part).unwrap_or_else(|| panic!("{part}: {rest}"));
        rest = &rest[begin..];
    }
    let alternative = "aria-label=\"Who ran when, against the shares, in every 10 ms: counting got 2.55 ms on average and 3 ms at most of its 4 ms; ";
    assert!(page.contains(alternative));
}

/// Refusals with number, meaning, advice, how often, and where first; bad lines; odd names.
#[test]
fn refusals_and_bad_lines() {
    let calls = EXAMPLE.replace("name 2 counting", "name 2 <b>&\"counting");
    let list = list(
        "odd names.calls",
        &(calls + "create_budget 99 1 1 0\nfoo\n"),
    );
    let file = scratch("odd names.html");
    let (ran, page) = page(&["replay", text(&list), "--silent"], &file, None);
    assert_eq!(ran.status, 4);
    assert!(page.contains("&lt;b&gt;&amp;&quot;counting") && !page.contains("<b>&\""));
    for refusal in [
        carv::Refusal::Limit,
        carv::Refusal::Pays,
        carv::Refusal::Missing,
    ] {
        for text in [refusal.meaning(), refusal.advice()] {
            assert!(page.contains(&format!(">{text}</td>")), "{text}");
        }
        let number = format!("data-label=\"refused with\">{}</th>", refusal.number());
        assert!(page.contains(&number), "{number}");
    }
    let line = EXAMPLE
        .lines()
        .position(|line| line.starts_with("create_budget root 5_000_000"));
    let line = line.expect("a refused call") + 1;
    let first = format!(">line {line}: create_budget root 5000000 0 0</td>");
    assert!(page.contains(&first), "{first}");
    assert!(page.contains("Is all of the list in this report?"));
    assert!(page.contains("is no call, and the tool stopped there"));
    assert!(
        page.contains("carv replay '"),
        "a path with a blank is quoted"
    );
    assert!(
        page.contains("thread 5 of budget 3 (bag printer) is killed"),
        "an event"
    );
}

/// Without ticks there is a page, and it says what can't be said.
#[test]
fn without_ticks() {
    let list = list("none.calls", "open 10_000_000 1_000_000\n");
    let file = scratch("none.html");
    let (ran, page) = page(&["replay", text(&list)], &file, None);
    assert_eq!(ran.status, 0);
    assert!(page.contains("not known</strong><span>No service was seen"));
    assert!(page.contains("There is no picture: no tick was accepted."));
    assert!(!page.contains("<svg"));
}

/// A board that can't be kept and a picture that can't be drawn cost neither each other nor the page.
#[test]
fn without_other_files() {
    for (calls, says) in [
        ("open 10_000_000 1_000_000\n", "no accepted tick"),
        ("current\n", "no board was opened"),
    ] {
        let list = list("others.calls", calls);
        let [file, svg, board] = ["others.html", "others.svg", "others.board"].map(scratch);
        let files = ["--svg", text(&svg), "--keep", text(&board)];
        let arguments = [&["replay", text(&list)], &files[..]].concat();
        let (ran, page) = page(&arguments, &file, None);
        assert_eq!(ran.status, 1);
        assert!(ran.err.ends_with(&format!("{says}.\n")), "{}", ran.err);
        assert!(page.contains("There is no picture: no tick was accepted."));
        assert_eq!(board.exists(), calls.starts_with("open"));
        assert!(!svg.exists());
    }
}

/// Where the reader of the answers has gone, the page is of the whole list.
#[test]
fn nobody_reads_the_answers() {
    let file = scratch("unread.html");
    let ticks: String = (1..=20_000).map(|n| format!("tick {n}\n")).collect();
    let list = format!("open 10_000_000 1\n{ticks}");
    let (mut child, writer) = spawn(&["replay", "--html", text(&file)], list.as_bytes());
    drop(child.stdout.take());
    let status = child.wait().expect("the tool ends");
    writer.join().expect("the list is written");
    assert_eq!(status.code(), Some(0));
    let page = fs::read_to_string(file).expect("a page");
    assert!(page.contains(">20,000 of 1 ms, 1 to 20,000</dd>"));
}

/// Of a number that came several times the first place is told.
#[test]
fn where_a_refusal_came_first() {
    let calls = "open 10_000_000 1\nremove 8 0\nremove 9 0\n";
    let (list, file) = (list("twice.calls", calls), scratch("twice.html"));
    let (_, page) = page(&["replay", text(&list)], &file, None);
    assert!(page.contains("data-label=\"times\">2</td>"));
    assert!(page.contains(">line 2: remove 8 0</td>"));
}

/// What was refused before the first tick has no time.
#[test]
fn events_before_the_first_tick() {
    let early = "open 10_000_000 1_000_000\nremove 9 0\n";
    let file = scratch("early.html");
    let time = |calls: &str| {
        let list = list("early.calls", calls);
        let (_, page) = page(&["replay", text(&list)], &file, None);
        let (_, events) = page.split_once("What happened when").expect("events");
        let (before, _) = events.split_once(">remove 9 0: ").expect("an event");
        let (_, time) = before.rsplit_once("data-label=\"at, ms\">").expect(before);
        let (time, _) = time.split_once('<').expect("its end");
        time.to_string()
    };
    assert_eq!(time(early), "before the first tick");
    let then = |calls: &str| time(&format!("{early}{calls}\n"));
    assert_eq!(then("tick 1"), "before the first tick");
    assert_eq!(then("tick 0"), "0");
}

/// Only the stamp of the linked library, with its verdict, says that it is proved.
#[test]
fn stamps() {
    let file = scratch("stamp.html");
    let stamps = scratch("stamp.txt");
    let said = |stamp: Option<&str>| {
        if let Some(stamp) = stamp {
            fs::write(&stamps, stamp).expect("a stamp");
        }
        let path = stamp.map(|_| stamps.as_path());
        page(&["report", STARVING], &file, path).1
    };
    let right = said(Some(&stamp(SUM, "logic=proved")));
    assert!(right.contains("logic=proved, 322 functions of 8 crates, 0 axioms"));
    assert!(right.contains(&format!("<code>{SUM}</code>")) && !right.contains("not stamped"));
    for (page, why) in [
        (said(None), "not stamped: CARV_STAMP names no file"),
        (
            said(Some(&stamp("0000000000000000", "logic=proved"))),
            "not stamped: the stamp is of another library, with the FNV-1a sum 0000000000000000",
        ),
        (
            said(Some(&stamp(SUM, "logic=not proved throughout"))),
            "NOT PROVED: the prover's verdict on the library is `logic=not proved throughout`",
        ),
        (
            said(Some("")),
            "not stamped: the stamp has no line `commit`",
        ),
    ] {
        assert!(page.contains(why), "{why}");
        assert!(!page.contains("logic=proved"), "{why}");
    }
    let away = page(&["report", STARVING], &file, Some(&scratch("no stamp.txt"))).1;
    assert!(away.contains("no stamp.txt can't be read: "));
}

/// A page is not written over its list, nor where it can't be.
#[test]
fn where_it_can_not_be_written() {
    let list = list("over.calls", EXAMPLE);
    let ran = crate::carv(&["report", text(&list), "--html", text(&list)], "");
    assert_eq!(ran.status, 2);
    let told = "the page would be written over the list";
    assert!(ran.err.contains(told), "{}", ran.err);
    assert_eq!(fs::read_to_string(&list).expect("the list"), EXAMPLE);
    let away = ["replay", text(&list), "--html", "/no such folder/page.html"];
    let ran = crate::carv(&away, "");
    assert_eq!((ran.status, ran.out.as_str()), (1, ""));
    assert!(
        ran.err
            .contains("the page /no such folder/page.html can't be written")
    );
    let file = scratch("from.html");
    let from = ["report", STARVING, "--from", "110", "--html", text(&file)];
    let ran = crate::carv(&from, "");
    assert_eq!(ran.status, 2);
    assert!(
        ran.err
            .contains("--from 110 is outside of the list's ticks, 1 to 109")
    );
    assert!(!file.exists());
}

/// What was spent: overspent with a clock that fell, or not known of a board that is gone on with.
#[test]
fn what_was_spent() {
    let fell = [
        "open 10_000_000 1_000_000",
        "charge_cpu root 9_000_000 10_000_000",
        "refill root 20_000_000",
        "charge_cpu root 5_000_000 10_000_000",
    ];
    let list = list("fell.calls", &crate::lines(&fell));
    let (file, board) = (scratch("fell.html"), scratch("fell.board"));
    let (_, fallen) = page(
        &["replay", text(&list), "--keep", text(&board)],
        &file,
        None,
    );
    let told = "The clock fell at line 4, from 20 ms to 10 ms, and what is proved of periods is for clocks that never fall.";
    assert!(fallen.contains(told), "{fallen}");
    let told = "NO</strong><span>root with all below it spent 14 ms of its 10 ms in the period from 10 ms.";
    assert!(fallen.contains(told), "{fallen}");
    let more = scratch("more.calls");
    fs::write(&more, "account root\n").expect("a list");
    let (_, more) = page(
        &["replay", text(&more), "--board", text(&board)],
        &file,
        None,
    );
    assert!(more.contains("not known</strong><span>What was spent isn't known"));
    assert!(more.contains("<dt>begun with the board</dt>"));
}

/// Of a list that opens its board twice the last opening counts, and the page says so.
#[test]
fn two_openings() {
    let twice = EXAMPLE.to_string() + EXAMPLE;
    let list = list("twice.calls", &twice);
    let (_, page) = page(&["replay", text(&list)], &scratch("twice.html"), None);
    let line = EXAMPLE
        .lines()
        .position(|line| line.starts_with("open "))
        .expect("an opening");
    let line = EXAMPLE.lines().count() + line + 1;
    let told = format!("2; answers, figures and picture are from the last on, at line {line}<");
    assert!(page.contains(&told), "{told}");
    // Each event of the example is there once.
    assert_eq!(
        page.matches("create_budget root 5000000 0 0: refused")
            .count(),
        2,
        "list and picture"
    );
}

/// A table of many rows is cut, and says how many more there are.
#[test]
fn many_budgets() {
    let calls =
        "open 10_000_000 1_000_000\n".to_string() + &"create_budget root 1_000 0 0\n".repeat(160);
    let list = list("many.calls", &calls);
    let (_, page) = page(
        &["replay", text(&list), "--silent"],
        &scratch("many.html"),
        None,
    );
    assert!(page.contains(">budget 150</th>") && !page.contains(">budget 151</th>"));
    assert!(page.contains("And 11 rows more, which `carv report` prints."));
}
